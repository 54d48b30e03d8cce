//! What a sheet is turned away with ("When the sheet is turned away"): a number
//! of the table and a place.

use std::fmt;

#[derive(Clone, Copy, Debug, PartialEq, Eq)]
pub struct Refusal {
    pub number: usize,
    pub place: usize,
}

impl Refusal {
    pub fn new(number: usize, place: usize) -> Refusal {
        Refusal { number, place }
    }
}

/// As it is printed.
impl fmt::Display for Refusal {
    fn fmt(&self, f: &mut fmt::Formatter) -> fmt::Result {
        write!(f, "refused {} {}", self.number, self.place)
    }
}
