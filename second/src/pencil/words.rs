//! The lines of a trail with their blanks (`blanks`), each written down once.

pub mod head;
pub mod loads;
pub mod members;
pub mod plates;
pub mod steps;
