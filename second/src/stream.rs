//! Many sheets in one stream: each stands behind its length in four bytes,
//! most significant first.

use crate::rest::{self, Rest};

#[derive(Debug, PartialEq, Eq)]
pub enum Piece<'a> {
    Sheet(&'a [u8]),
    /// The stream ends inside a length or a sheet, or a length is too great.
    Broken,
}

pub struct Pieces<'a> {
    rest: Rest<'a>,
}

pub fn pieces(stream: &[u8]) -> Pieces<'_> {
    Pieces {
        rest: Rest::new(stream),
    }
}

impl<'a> Pieces<'a> {
    fn sheet(&mut self) -> Option<&'a [u8]> {
        let [length] = self.rest.numbers()?;
        self.rest.bytes_of(length)
    }
}

impl<'a> Iterator for Pieces<'a> {
    type Item = Piece<'a>;

    /// Nothing comes after a broken piece.
    fn next(&mut self) -> Option<Piece<'a>> {
        if self.rest.is_empty() {
            return None;
        }
        let sheet = self.sheet();
        if sheet.is_none() {
            *self = pieces(&[]);
        }
        Some(sheet.map_or(Piece::Broken, Piece::Sheet))
    }
}

/// The sheet with its length before it.
pub fn framed(sheet: &[u8]) -> Vec<u8> {
    let mut bytes = rest::framed([rest::length(sheet)]);
    bytes.extend_from_slice(sheet);
    bytes
}
