//! The layouts of the document ("The sheet, bit by bit") and a form filled in
//! after one of them; those of headers stand with their versions (`version`). A
//! form holds whatever its bits can hold; which values are allowed is another
//! subject (`limits`).

use crate::bits::{BitReader, BitWriter};

/// A field's name and its width in bits.
pub type Field = (&'static str, u32);

/// Fields in layout order.
pub type Layout = &'static [Field];

pub const PLATE: Layout = &[
    ("kind", 4),
    ("id", 10),
    ("K", 10),
    ("z", 10),
    ("S", 12),
    ("T", 12),
    ("b1", 10),
    ("b2", 10),
    ("ballast", 1),
    ("zL", 11),
    ("cargo", 18),
    ("zero", 20),
];

pub const MEMBER: Layout = &[
    ("kind", 4),
    ("id", 10),
    ("z", 10),
    ("S", 12),
    ("l", 10),
    ("T", 12),
    ("beta_b", 7),
    ("beta_s", 7),
    ("eta", 7),
    ("sigma1", 8),
    ("W", 17),
    ("A", 14),
    ("K", 10),
];

pub const VERDICT: Layout = &[("id", 10), ("rule", 3), ("required", 17), ("source", 2)];

pub const RECORD_BYTES: usize = 16;
pub const VERDICT_BYTES: usize = 4;

/// A record given as numbers has as many as the longer layout has fields.
pub const RECORD_NUMBERS: usize = MEMBER.len();

/// The layout a record of this kind has; none for a kind that does not exist.
pub fn record_layout(kind: i128) -> Option<Layout> {
    match kind {
        1..=4 => Some(PLATE),
        5..=8 => Some(MEMBER),
        _ => None,
    }
}

/// The fields that are entered: all but the zero bits.
pub fn entered(layout: Layout) -> impl Iterator<Item = &'static Field> {
    let fields = layout.iter();
    fields.filter(|field| !["zero", "last_zero"].contains(&field.0))
}

/// The place of a field in its layout, counted from 1 as refusals count.
pub fn field_number(layout: Layout, name: &str) -> usize {
    let index = layout.iter().position(|field| field.0 == name);
    index.unwrap_or_else(|| panic!("no field {name}")) + 1
}

#[derive(Clone, Debug, PartialEq, Eq)]
pub struct Form {
    pub layout: Layout,
    pub values: Vec<i128>,
}

impl Form {
    /// A form with every field 0.
    pub fn blank(layout: Layout) -> Form {
        Form {
            layout,
            values: vec![0; layout.len()],
        }
    }

    /// A blank form with the named fields filled in.
    pub fn filled(layout: Layout, fields: &[(&str, i128)]) -> Form {
        let mut form = Form::blank(layout);
        form.fill(fields);
        form
    }

    /// A form with these values in the fields that are entered, in layout order.
    pub fn of_entered(layout: Layout, values: &[i128]) -> Form {
        let fields = entered(layout).zip(values);
        let fields: Vec<(&str, i128)> = fields.map(|(field, value)| (field.0, *value)).collect();
        Form::filled(layout, &fields)
    }

    pub fn entered(&self) -> Vec<i128> {
        entered(self.layout)
            .map(|field| self.get(field.0))
            .collect()
    }

    pub fn fill(&mut self, fields: &[(&str, i128)]) {
        for (name, value) in fields {
            self.set(name, *value);
        }
    }

    pub fn has(&self, name: &str) -> bool {
        self.layout.iter().any(|field| field.0 == name)
    }

    pub fn get(&self, name: &str) -> i128 {
        self.values[field_number(self.layout, name) - 1]
    }

    pub fn set(&mut self, name: &str, value: i128) {
        self.values[field_number(self.layout, name) - 1] = value;
    }

    pub fn unpack(layout: Layout, bytes: &[u8]) -> Form {
        let mut bits = BitReader::new(bytes);
        let values = layout.iter().map(|field| bits.take(field.1)).collect();
        Form { layout, values }
    }

    pub fn pack(&self) -> Vec<u8> {
        let mut bits = BitWriter::default();
        for (field, value) in self.layout.iter().zip(&self.values) {
            bits.put(*value, field.1);
        }
        bits.into_bytes()
    }
}
