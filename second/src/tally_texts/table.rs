//! What became of a text that may be filled up, on the first look and on the second, and
//! what stood in it.

use crate::fields::{lines, unfilled, Line};
use crate::refusal::Refusal;
use crate::rest::LONGEST;
use crate::text::{packed, read_text, LineFault};

/// What must come up of tables, by the two looks.
pub const LOOKS: [&str; 9] = [
    "read at once",
    "read without its filling",
    "the table's own at once",
    "the table's own without filling",
    "14 that stands against 15",
    "14 without filling too",
    "14 in place of 15 of its line",
    "a later line without filling",
    "15 without filling too",
];

/// And by what stood in it.
pub const FILLED: [&str; 8] = [
    "lines filled up, CR LF",
    "lines filled up, LF",
    "no last line end",
    "lines of filling at the end",
    "an empty line at the end",
    "a line of filling inside",
    "quotes at a line's end",
    "a CR before filling",
];

pub fn of(text: &[u8], outcome: Result<usize, Refusal>) -> Vec<&'static str> {
    let first = read_text(text, &mut vec![0; LONGEST]);
    let mut names = vec![look(text, first, outcome)];
    let has = |part: &[u8]| text.windows(part.len()).any(|at| at == part);
    let (with, without) = (lines(text), unfilled(text));
    let blank = |line: &&Line| line.iter().flatten().all(String::is_empty) && line.is_ok();
    let found = [
        has(b",\r\n"),
        has(b",\n"),
        !text.ends_with(b"\n"),
        with.len() > without.len() && has(b",\n") | has(b",\r\n"),
        text.ends_with(b"\n\n") || text.ends_with(b"\n\r\n"),
        without.iter().any(|line| blank(&line)),
        has(b"\"\"\n") || has(b"\"\"\r\n"),
        has(b"\r,"),
    ];
    let found = FILLED.into_iter().zip(found).filter(|found| found.1);
    names.extend(found.map(|found| found.0));
    names
}

fn look(
    text: &[u8],
    first: Result<usize, Refusal>,
    outcome: Result<usize, Refusal>,
) -> &'static str {
    let by_line = |refusal: Refusal| matches!(refusal.number, 14 | 15);
    match (first, outcome) {
        (Ok(_), _) => "read at once",
        (Err(first), Ok(_)) if by_line(first) => "read without its filling",
        (Err(first), Err(again)) if by_line(first) && by_line(again) => {
            by_lines(text, first, again)
        }
        (Err(first), _) if by_line(first) => "the table's own without filling",
        (Err(_), _) => "the table's own at once",
    }
}

fn by_lines(text: &[u8], first: Refusal, again: Refusal) -> &'static str {
    let index = first.place - 1;
    let fault = unfilled(text).get(index).map(|line| packed(line, index));
    if again.place > first.place {
        "a later line without filling"
    } else if again.number < first.number {
        "14 in place of 15 of its line"
    } else if again.number == 15 {
        "15 without filling too"
    } else if fault == Some(Err(LineFault::Count)) {
        "14 that stands against 15"
    } else {
        "14 without filling too"
    }
}
