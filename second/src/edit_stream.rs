//! Many edits in one stream. A case is a head of three numbers, the buffer's
//! size, the sheet's stated length and the number of edits, then the buffer's
//! bytes, then the edits. An edit is fourteen numbers: 0 and a record's thirteen,
//! or 1, an id and zeros. All numbers have four bytes, most significant first.

use crate::edit::{edit, Edit};
use crate::form::RECORD_NUMBERS;
use crate::refusal::Refusal;
use crate::rest::{self, Rest};

const EDIT_NUMBERS: usize = 1 + RECORD_NUMBERS;
const PUT: u32 = 0;
const REMOVE: u32 = 1;

/// A buffer with the length stated for the sheet in it.
#[derive(Clone, Debug, Default, PartialEq, Eq)]
pub struct Lent {
    pub buffer: Vec<u8>,
    pub length: usize,
}

impl Lent {
    /// One edit; the next one finds the buffer and the length that this one leaves.
    pub fn edit(&mut self, change: &Edit) -> Result<usize, Refusal> {
        self.length = edit(&mut self.buffer, self.length, change)?;
        Ok(self.length)
    }
}

#[derive(Debug, PartialEq, Eq)]
pub enum Part {
    /// A case begins: its edits come one by one behind it.
    Case(Lent),
    Edit(Edit),
    /// The stream ends inside a case, a buffer is too large or an edit is none.
    Broken,
}

pub struct Parts<'a> {
    rest: Rest<'a>,
    /// Edits of the case that are still to come.
    edits: u32,
}

pub fn parts(stream: &[u8]) -> Parts<'_> {
    Parts {
        rest: Rest::new(stream),
        edits: 0,
    }
}

impl Parts<'_> {
    fn case(&mut self) -> Option<Part> {
        let [size, length, edits] = self.rest.numbers()?;
        let buffer = self.rest.bytes_of(size)?.to_vec();
        self.edits = edits;
        let length = length as usize;
        Some(Part::Case(Lent { buffer, length }))
    }

    fn edit(&mut self) -> Option<Part> {
        let [what, fields @ ..] = self.rest.numbers::<EDIT_NUMBERS>()?;
        self.edits -= 1;
        match what {
            PUT => Some(Part::Edit(Edit::Put(fields))),
            REMOVE => Some(Part::Edit(Edit::Remove(fields[0]))),
            _ => None,
        }
    }
}

impl Iterator for Parts<'_> {
    type Item = Part;

    /// Nothing comes after a broken part.
    fn next(&mut self) -> Option<Part> {
        let part = match self.edits {
            0 if self.rest.is_empty() => return None,
            0 => self.case(),
            _ => self.edit(),
        };
        if part.is_none() {
            *self = parts(&[]);
        }
        Some(part.unwrap_or(Part::Broken))
    }
}

/// One case as it stands in a stream.
pub fn framed(lent: &Lent, edits: &[Edit]) -> Vec<u8> {
    let size = rest::length(&lent.buffer);
    let mut bytes = rest::framed([size, lent.length as u32, edits.len() as u32]);
    bytes.extend(&lent.buffer);
    for edit in edits {
        let mut numbers = [0; EDIT_NUMBERS];
        match edit {
            Edit::Put(fields) => {
                numbers[0] = PUT;
                numbers[1..].copy_from_slice(fields);
            }
            Edit::Remove(id) => {
                numbers[0] = REMOVE;
                numbers[1] = *id;
            }
        }
        bytes.extend(rest::framed(numbers));
    }
    bytes
}
