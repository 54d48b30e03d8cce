//! A count of what came up in a stream of texts: what was read and written, each refusal
//! by what it was given for, and how the texts were put down (`tally_texts/shape`).

mod shape;
mod table;

use crate::fields::{lines, Line, QuoteFault};
use crate::form::PLATE;
use crate::refusal::Refusal;
use crate::rows::{line, Rows, ANY};
use crate::tally::HUNDREDS;
use crate::text::{layout_of, packed, LineFault, NumberFault};
use crate::text_stream::{cases, Broken, Case, What};
use crate::version::{SHORTEST_HEADER, VERSIONS};
pub use shape::SHAPES;
pub use table::{FILLED, LOOKS};

/// A row that must come up in each version has its share there.
const SHARE: usize = HUNDREDS / VERSIONS.len();

/// Each shape comes up at least so often.
const SOME: usize = 30;

/// And of tables each look and each way of filling.
const FEW: usize = 10;

/// The rows that must come up hundreds of times whatever the version.
pub const IN_ANY_VERSION: [&str; 14] = [
    "14 quote unclosed",
    "14 quote out of place",
    "14 behind a closing quote",
    "14 empty line",
    "14 first field no number",
    "14 first field too wide",
    "14 no number",
    "14 too wide",
    "15 on a plate",
    "15 on a member",
    "2 in reading",
    "1 in writing, under twelve bytes",
    "1 in writing, under its header",
    "2 in writing",
];

/// The rows that must come up in each version, in the order of the table.
pub const BY_VERSION: [&str; 17] = [
    "read",
    "15 on the header",
    "3 in reading",
    "9 in reading",
    "4 in reading",
    "6 in reading",
    "7 in reading",
    "8 in reading",
    "5 in reading",
    "written",
    "3 in writing",
    "9 in writing",
    "4 in writing",
    "6 in writing",
    "7 in writing",
    "8 in writing",
    "5 in writing",
];

#[derive(Default)]
pub struct TextTally {
    pub reads: usize,
    pub writes: usize,
    pub tables: usize,
    pub rows: Rows,
    pub broken: bool,
}

impl TextTally {
    pub fn of(stream: &[u8]) -> TextTally {
        let mut tally = TextTally::default();
        for case in cases(stream) {
            match case {
                Ok(case) => tally.count(case),
                Err(Broken) => tally.broken = true,
            }
        }
        tally
    }

    fn count(&mut self, mut case: Case) {
        let outcome = case.run();
        if case.what == What::Table {
            self.tables += 1;
            for name in table::of(&case.input, outcome) {
                self.rows.add(name, ANY);
            }
            return;
        }
        let (name, version) = match case.what {
            What::Read => {
                self.reads += 1;
                read(&case.input, outcome)
            }
            _ => {
                self.writes += 1;
                written(&case.input, outcome)
            }
        };
        self.rows.add(&name, version);
        for shape in shape::of(&case, outcome) {
            self.rows.add(shape, ANY);
        }
    }

    pub fn table(&self) -> String {
        let mut lines = vec![
            line("texts to read", &[self.reads]),
            line("sheets to write", &[self.writes]),
        ];
        lines.extend(self.rows.lines(&IN_ANY_VERSION));
        lines.extend(self.rows.lines_by_version(&BY_VERSION));
        lines.push("of these".to_string());
        lines.extend(self.rows.lines(&SHAPES));
        lines.push(line("tables to read", &[self.tables]));
        lines.extend(self.rows.lines(&LOOKS));
        lines.push("of these".to_string());
        lines.extend(self.rows.lines(&FILLED));
        lines.join("\n") + "\n"
    }

    /// The rows that do not come up often enough, and those that come up and must not.
    pub fn complaints(&self) -> Vec<String> {
        let mut complaints = self.rows.complaints(&IN_ANY_VERSION, HUNDREDS);
        complaints.extend(self.rows.complaints_by_version(&BY_VERSION, SHARE));
        complaints.extend(self.rows.complaints(&SHAPES, SOME));
        complaints.extend(self.rows.complaints(&LOOKS, FEW));
        complaints.extend(self.rows.complaints(&FILLED, FEW));
        complaints
    }
}

/// The row of a text, with its version.
fn read(text: &[u8], outcome: Result<usize, Refusal>) -> (String, i128) {
    let lines = lines(text);
    match outcome {
        Err(Refusal {
            number: 14 | 15,
            place,
        }) => of_line(&lines[place - 1], place - 1),
        Err(Refusal { number: 2, .. }) => ("2 in reading".to_string(), ANY),
        Err(refusal) => (format!("{} in reading", refusal.number), first(&lines[0])),
        Ok(_) => ("read".to_string(), first(&lines[0])),
    }
}

/// The version or kind that a line begins with.
fn first(line: &Line) -> i128 {
    let fields = line.as_ref().expect("a line with sound quotes");
    fields[0].parse().expect("a first field that is a number")
}

fn of_line(line: &Line, index: usize) -> (String, i128) {
    let fault = packed(line, index).expect_err("a line that was turned away");
    let name = match fault {
        LineFault::Quotes(QuoteFault::Unclosed) => "14 quote unclosed",
        LineFault::Quotes(QuoteFault::OutOfPlace) => "14 quote out of place",
        LineFault::Quotes(QuoteFault::NotFollowed) => "14 behind a closing quote",
        LineFault::First(_) if *line == Ok(vec![String::new()]) => "14 empty line",
        LineFault::First(NumberFault::NotWritten) => "14 first field no number",
        LineFault::First(NumberFault::TooWide) => "14 first field too wide",
        LineFault::Field(NumberFault::NotWritten) => "14 no number",
        LineFault::Field(NumberFault::TooWide) => "14 too wide",
        LineFault::Count if index == 0 => return ("15 on the header".to_string(), first(line)),
        LineFault::Count if layout_of(first(line), index) == Some(PLATE) => "15 on a plate",
        LineFault::Count => "15 on a member",
    };
    (name.to_string(), ANY)
}

/// The row of a sheet, with its version.
fn written(sheet: &[u8], outcome: Result<usize, Refusal>) -> (String, i128) {
    let name = match outcome {
        Err(Refusal { number: 1, .. }) if sheet.len() < SHORTEST_HEADER => {
            "1 in writing, under twelve bytes"
        }
        Err(Refusal { number: 1, .. }) => "1 in writing, under its header",
        Err(Refusal { number: 2, .. }) => "2 in writing",
        Err(refusal) => {
            let name = format!("{} in writing", refusal.number);
            return (name, i128::from(sheet[0] >> 4));
        }
        Ok(_) => return ("written".to_string(), i128::from(sheet[0] >> 4)),
    };
    (name.to_string(), ANY)
}
