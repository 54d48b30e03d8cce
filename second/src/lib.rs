//! The second program: the document ("The build, stated with its exact rules")
//! worked out a second time, by other means than the proved checker, so that
//! the answers of the two can be laid side by side.
//!
//! Numbers are `i128` throughout. The widest product of the page (the left of
//! rule 3's second form, with the greatest R) stays under 10^29, so nothing here
//! can overflow and every inequality can stand exactly as it is printed.

// The rules are written with the document's own letters (L, D0, K, S, T, W, A),
// so that a line of code can be held against a line of the page.
#![allow(non_snake_case)]

pub mod bits;
pub mod check;
pub mod edit;
pub mod edit_stream;
pub mod fields;
pub mod form;
pub mod header_case;
pub mod hull_case;
pub mod limits;
pub mod loads;
pub mod make;
pub mod pencil;
pub mod print;
pub mod quotient;
pub mod refusal;
pub mod rest;
pub mod rows;
pub mod rules;
pub mod sheet;
pub mod slender;
pub mod stream;
pub mod tally;
pub mod tally_edits;
pub mod tally_texts;
pub mod tally_trails;
pub mod text;
pub mod text_stream;
pub mod version;
