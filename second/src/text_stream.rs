//! Many texts in one stream. A case is a head of three numbers, what is to be done, the
//! input's length and the output's size, then the input's bytes, then the output's as
//! they are lent. All numbers have four bytes, most significant first.

use crate::refusal::Refusal;
use crate::rest::{self, Rest};
use crate::text::{read_table, read_text, write_text};

const READ: u32 = 0;
const WRITE: u32 = 1;
const TABLE: u32 = 2;

#[derive(Clone, Copy, Debug, PartialEq, Eq)]
pub enum What {
    /// A text is read into a sheet.
    Read,
    /// A sheet is written as text.
    Write,
    /// A text is read into a sheet, again without its filling where that helps.
    Table,
}

#[derive(Clone, Debug, PartialEq, Eq)]
pub struct Case {
    pub what: What,
    pub input: Vec<u8>,
    pub output: Vec<u8>,
}

impl Case {
    /// Fills the output and gives the length written.
    pub fn run(&mut self) -> Result<usize, Refusal> {
        match self.what {
            What::Read => read_text(&self.input, &mut self.output),
            What::Write => write_text(&self.input, &mut self.output),
            What::Table => read_table(&self.input, &mut self.output),
        }
    }
}

/// The stream ends inside a case, a length is too great or there is no such thing to do.
#[derive(Debug, PartialEq, Eq)]
pub struct Broken;

pub struct Cases<'a> {
    rest: Rest<'a>,
}

pub fn cases(stream: &[u8]) -> Cases<'_> {
    Cases {
        rest: Rest::new(stream),
    }
}

impl Cases<'_> {
    fn case(&mut self) -> Option<Case> {
        let [what, length, size] = self.rest.numbers()?;
        let what = match what {
            READ => What::Read,
            WRITE => What::Write,
            TABLE => What::Table,
            _ => return None,
        };
        let input = self.rest.bytes_of(length)?.to_vec();
        let output = self.rest.bytes_of(size)?.to_vec();
        Some(Case {
            what,
            input,
            output,
        })
    }
}

impl Iterator for Cases<'_> {
    type Item = Result<Case, Broken>;

    /// Nothing comes after a break.
    fn next(&mut self) -> Option<Result<Case, Broken>> {
        if self.rest.is_empty() {
            return None;
        }
        let case = self.case();
        if case.is_none() {
            *self = cases(&[]);
        }
        Some(case.ok_or(Broken))
    }
}

/// One case as it stands in a stream.
pub fn framed(case: &Case) -> Vec<u8> {
    let Case {
        what,
        input,
        output,
    } = case;
    let what = match what {
        What::Read => READ,
        What::Write => WRITE,
        What::Table => TABLE,
    };
    let mut bytes = rest::framed([what, rest::length(input), rest::length(output)]);
    bytes.extend(input);
    bytes.extend(output);
    bytes
}
