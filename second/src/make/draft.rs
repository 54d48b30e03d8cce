//! A sheet not yet packed, so that single fields can still be changed.

use crate::form::Form;

#[derive(Clone)]
pub struct Draft {
    pub header: Form,
    pub records: Vec<Form>,
}

impl Draft {
    pub fn bytes(&self) -> Vec<u8> {
        let mut bytes = self.header.pack();
        for record in &self.records {
            bytes.extend(record.pack());
        }
        bytes
    }
}
