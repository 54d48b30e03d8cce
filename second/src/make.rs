//! Sheets made from a seed: sound ones whose scantlings stand where a rule
//! turns, and spoilt ones for every way of being turned away. The same seed
//! gives the same sheets everywhere.

mod cells;
mod chance;
mod damage;
mod draft;
mod edge;
mod edits;
mod faults;
mod headers;
mod hulls;
mod laden;
mod page;
mod record;
mod refused;
mod slips;
mod spoil;
mod tables;
mod texts;
mod tie;
mod vessel;
mod whole;

use crate::edit::Edit;
use crate::edit_stream::Lent;
use crate::rest::LONGEST;
use crate::text_stream::Case;
use crate::version::VERSIONS;
use chance::Chance;
use edge::Edges;
use faults::Faults;
use headers::Headers;
use texts::Texts;
use whole::{full, noise, sound, sound_in};

/// One case of texts in so many is a table.
const TABLE_TURN: usize = 16;

/// A sheet with more behind its header than all its records can fill.
fn longer_than_any(chance: &mut Chance) -> Vec<u8> {
    let version = chance.of(VERSIONS);
    let mut draft = sound_in(chance, version, 1);
    let too_many = version.n_highest + chance.between(1, 111);
    let n = *chance.of(&[version.n_highest, too_many]);
    draft.header.set("n", n);
    let mut bytes = draft.bytes();
    let fullest = version.sheet_bytes(version.n_highest);
    let length = match chance.below(4) {
        0 => fullest + 1,
        1 => version.sheet_bytes(too_many),
        2 => LONGEST,
        _ => chance.between(fullest as i128 + 1, LONGEST as i128) as usize,
    };
    let record = bytes[version.bytes..].to_vec();
    while bytes.len() < length {
        bytes.extend_from_slice(&record);
    }
    bytes.truncate(length);
    bytes
}

/// Sheet after sheet, without end.
pub fn sheets(seed: u64) -> impl Iterator<Item = Vec<u8>> {
    let mut chance = Chance::new(seed);
    let mut edges = Edges::new();
    let mut headers = Headers::new();
    std::iter::repeat_with(move || one(&mut chance, &mut edges, &mut headers))
}

/// Case after case of edits, without end.
pub fn edit_cases(seed: u64) -> impl Iterator<Item = (Lent, Vec<Edit>)> {
    let mut chance = Chance::new(seed);
    let mut faults = Faults::default();
    std::iter::repeat_with(move || edits::case(&mut chance, &mut faults))
}

/// Case after case of texts, without end.
pub fn text_cases(seed: u64) -> impl Iterator<Item = Case> {
    let mut chance = Chance::new(seed);
    let mut texts = Texts::new();
    let mut tables = Chance::one_of(seed, 0);
    let turns = (1..=TABLE_TURN).cycle();
    turns.map(move |turn| match turn {
        TABLE_TURN => texts.table(&mut tables),
        _ => texts.case(&mut chance),
    })
}

/// A sheet with hundreds of records that no check turns away.
pub fn full_sheet(seed: u64, index: u64) -> Vec<u8> {
    laden::sheet(seed, index).bytes()
}

fn one(chance: &mut Chance, edges: &mut Edges, headers: &mut Headers) -> Vec<u8> {
    match chance.below(1000) {
        0..5 => full(chance).bytes(),
        5..7 => longer_than_any(chance),
        7..10 => refused::full_with_a_fault_at_its_end(chance).bytes(),
        10..30 => sound(chance, 0).bytes(),
        30..80 => noise(chance),
        80..230 => field_to_an_end(chance),
        230..445 => spoilt_as_draft(chance),
        445..525 => spoilt_as_bytes(chance),
        525..575 => edges.sheet(chance).bytes(),
        575..665 => headers.sheet(chance),
        _ => {
            let n = chance.between(1, 12);
            sound(chance, n).bytes()
        }
    }
}

fn field_to_an_end(chance: &mut Chance) -> Vec<u8> {
    let n = chance.between(1, 6);
    let mut draft = sound(chance, n);
    spoil::field_to_an_end(chance, &mut draft);
    draft.bytes()
}

/// More than one fault at times: the first of the table must be named.
fn spoilt_as_draft(chance: &mut Chance) -> Vec<u8> {
    let n = chance.between(1, 8);
    let mut draft = sound(chance, n);
    for _ in 0..*chance.of(&[1, 1, 1, 2, 3]) {
        spoil::draft(chance, &mut draft);
    }
    let mut bytes = draft.bytes();
    if chance.one_in(8) {
        spoil::bytes(chance, &mut bytes);
    }
    bytes
}

fn spoilt_as_bytes(chance: &mut Chance) -> Vec<u8> {
    let n = chance.between(0, 8);
    let mut bytes = sound(chance, n).bytes();
    spoil::bytes(chance, &mut bytes);
    bytes
}
