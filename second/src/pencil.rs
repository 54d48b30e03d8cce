//! The pencil trail: how the least number of each rule is worked out for a member, so that
//! a surveyor can follow it. What is worked out, the right side of the rule as the printed
//! formula has it, its root and the scantling by that, stands beside what the walk up the
//! gauge finds (`rules`); neither is taken from the other.

pub mod blanks;
mod ending;
mod load;
mod members;
mod plates;
mod root;
mod stress;
pub mod words;
mod working;

use crate::check::read_all;
use crate::rules::demands;
use crate::sheet::{Header, Record};
use blanks::filled;
use words::head::{HEADINGS, LETTERS};
use working::Working;

fn heading(record: &Record) -> String {
    let kind = match record {
        Record::Plate(plate) => plate.kind,
        Record::Member(member) => member.kind,
    };
    filled(HEADINGS[kind as usize - 1], 0, &[record.id()])
}

/// The three rules that a record answers to, in order.
fn workings(header: &Header, record: &Record) -> [Working; 3] {
    match record {
        Record::Plate(plate) => plates::workings(header, plate),
        Record::Member(member) => members::workings(header, member),
    }
}

/// The scantling that each rule's working comes to, before the test.
pub fn worked_out(header: &Header, record: &Record) -> [Option<i128>; 3] {
    workings(header, record).map(|working| working.right.first())
}

/// The trail of one member of this hull.
pub fn trail(header: &Header, record: &Record) -> String {
    let demands = demands(header, record);
    let least = [0, 1, 2].map(|index| demands[index].least());
    let mut text = heading(record) + &load::loads(header, record);
    for (index, working) in workings(header, record).into_iter().enumerate() {
        text += &working.text;
        text += &ending::ending(&demands[index], &working.right, least[index]);
    }
    text + &ending::verdict(&demands, &least)
}

/// The letters, then the trails of all members of a sheet, an empty line before each of
/// them, or that of the one with this id; nothing where there is none; of a sheet that is
/// turned away the refusal.
pub fn explained(sheet: &[u8], id: Option<i128>) -> String {
    let (header, records) = match read_all(sheet, usize::MAX) {
        Ok(whole) => whole,
        Err(refusal) => return format!("{refusal}\n"),
    };
    let asked = records.iter();
    let asked = asked.filter(|record| id.is_none_or(|id| record.id() == id));
    let trails: Vec<String> = asked.map(|record| trail(&header, record)).collect();
    if trails.is_empty() {
        return String::new();
    }
    format!("{LETTERS}\n{}", trails.join("\n"))
}
