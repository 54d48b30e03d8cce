//! The versions of the sheet: which fields the header of each has, and how many
//! records it may count. A new version is a list of fields and an entry of the table.

use crate::form::{Field, Form, Layout, RECORD_BYTES};

#[derive(Debug, PartialEq, Eq)]
pub struct Version {
    pub number: i128,
    /// What the fields of the header fill.
    pub bytes: usize,
    pub n_highest: i128,
    pub layout: Layout,
}

/// Fields 1 to 9, with which every header begins.
const SHARED: [Field; 9] = [
    ("version", 4),
    ("L", 14),
    ("D0", 10),
    ("H", 8),
    ("runs", 1),
    ("M", 20),
    ("ZB", 27),
    ("n", 9),
    ("zero", 3),
];

const OWN_OF_2: [Field; 3] = [("ZDB", 27), ("depth", 10), ("last_zero", 27)];

pub const VERSION_1: Version = Version {
    number: 1,
    bytes: 12,
    n_highest: 400,
    layout: &SHARED,
};

pub const VERSION_2: Version = Version {
    number: 2,
    bytes: 20,
    n_highest: 400,
    layout: &joined::<12>(&SHARED, &OWN_OF_2),
};

pub const VERSIONS: &[Version] = &[VERSION_1, VERSION_2];

/// So many bytes must be there before the version is looked at.
pub const SHORTEST_HEADER: usize = VERSIONS[0].bytes;

/// One list of fields behind the other; not compiled unless they are COUNT in all.
const fn joined<const COUNT: usize>(first: &[Field], behind: &[Field]) -> [Field; COUNT] {
    let mut fields = [first[0]; COUNT];
    let (front, back) = fields.split_at_mut(first.len());
    front.copy_from_slice(first);
    back.copy_from_slice(behind);
    fields
}

impl Version {
    pub fn numbered(number: i128) -> Option<&'static Version> {
        VERSIONS.iter().find(|version| version.number == number)
    }

    /// The version whose fields a header's form has, whatever stands in them.
    pub fn of(header: &Form) -> &'static Version {
        let mut versions = VERSIONS.iter();
        let found = versions.find(|version| version.layout == header.layout);
        found.expect("a header's form")
    }

    /// Only a hull whose depth is known can be too slender.
    pub fn has_depth(&self) -> bool {
        self.layout.iter().any(|field| field.0 == "depth")
    }

    /// How long a sheet of so many records is.
    pub fn sheet_bytes(&self, n: i128) -> usize {
        self.bytes + RECORD_BYTES * n as usize
    }
}
