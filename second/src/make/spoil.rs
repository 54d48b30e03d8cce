//! Ways to spoil a sound sheet. Some leave it sound after all (a field moved
//! to an end of its range, a bit turned in T): those are wanted too.

use super::chance::Chance;
use super::draft::Draft;
use super::vessel;
use crate::form::{record_layout, Form};
use crate::hull_case::FaultsBehind;
use crate::limits::{in_header, in_record, Allowed, T_HIGHEST};
use crate::version::{Version, VERSIONS};

/// Values the kind field can hold and no record has.
const NO_KINDS: [i128; 8] = [0, 9, 10, 11, 12, 13, 14, 15];

/// Puts one field of the form at its lowest or highest value, or just outside
/// where its bits can hold that.
fn to_an_end(chance: &mut Chance, form: &mut Form, index: usize, allowed: Allowed) {
    let most_the_bits_hold = (1 << form.layout[index].1) - 1;
    let (lowest, highest) = (allowed.lowest(), allowed.highest());
    let wanted = *chance.of(&[lowest, highest, lowest - 1, highest + 1]);
    form.values[index] = wanted.clamp(0, most_the_bits_hold);
}

/// One field, anywhere in the header or the records, at or past an end.
pub fn field_to_an_end(chance: &mut Chance, draft: &mut Draft) {
    if chance.one_in(3) {
        header_field_to_an_end(chance, &mut draft.header);
    } else if let Some(index) = some_record(chance, draft) {
        record_field_to_an_end(chance, &mut draft.records[index]);
    }
}

pub fn header_field_to_an_end(chance: &mut Chance, header: &mut Form) {
    let index = chance.below(header.layout.len());
    let name = header.layout[index].0;
    let allowed = in_header(header, name);
    to_an_end(chance, header, index, allowed);
    if name == "H" && chance.one_in(2) {
        header.set("H", *chance.of(&[1, 59, 61, 119, 255]));
    }
}

pub fn record_field_to_an_end(chance: &mut Chance, record: &mut Form) {
    if record_layout(record.get("kind")) != Some(record.layout) {
        // Its kind is spoilt already: the data has no ranges any more.
        return;
    }
    let index = chance.below(record.layout.len());
    let name = record.layout[index].0;
    let allowed = in_record(record, name);
    to_an_end(chance, record, index, allowed);
}

fn some_record(chance: &mut Chance, draft: &Draft) -> Option<usize> {
    match draft.records.len() {
        0 => None,
        count => Some(chance.below(count)),
    }
}

/// Spoils the fields or the order of a draft in one way.
pub fn draft(chance: &mut Chance, draft: &mut Draft) {
    let Some(index) = some_record(chance, draft) else {
        return;
    };
    let last = draft.records.len() - 1;
    match chance.below(9) {
        0 => draft.records.swap(index, last),
        1 => draft.records.reverse(),
        2 => {
            let id = draft.records[last].get("id");
            draft.records[index].set("id", id);
        }
        3 => spoil_kind(chance, &mut draft.records[index]),
        4 => set_zero_bits(chance, draft, index),
        5 => wrong_count(chance, &mut draft.header),
        // One that is not there, or another than the header was written for.
        6 => draft
            .header
            .set("version", *chance.of(&[0, 1, 2, 3, 8, 9, 15])),
        7 if draft.header.has("depth") => vessel::make_slender(chance, &mut draft.header),
        _ => field_to_an_end(chance, draft),
    }
}

/// A fault in the last record of a sheet.
pub fn last_record(chance: &mut Chance, draft: &mut Draft) {
    let Some(last) = draft.records.last_mut() else {
        return;
    };
    match chance.below(3) {
        0 => spoil_kind(chance, last),
        1 => last.set("id", 1),
        _ => record_field_to_an_end(chance, last),
    }
}

/// The bytes of a sheet of three records or more with these faults behind its header:
/// where the last record is cut, the fault of the second is still there.
pub fn behind_the_header(chance: &mut Chance, mut draft: Draft, faults: FaultsBehind) -> Vec<u8> {
    if faults.faulty_record {
        second_record(chance, &mut draft);
    }
    let mut bytes = draft.bytes();
    if faults.wrong_length {
        wrong_length(chance, &mut bytes);
    }
    bytes
}

/// For certain: its kind, a field or its order.
fn second_record(chance: &mut Chance, draft: &mut Draft) {
    let before = draft.records[0].get("id");
    let record = &mut draft.records[1];
    match chance.below(3) {
        0 => no_kind(chance, record),
        1 => record.set("T", *chance.of(&[0, T_HIGHEST + 1])),
        _ => record.set("id", before),
    }
}

pub fn no_kind(chance: &mut Chance, record: &mut Form) {
    record.set("kind", *chance.of(&NO_KINDS));
}

/// An id that is not above the one before, in a sheet of two records or more.
pub fn order(chance: &mut Chance, draft: &mut Draft) {
    let index = 1 + chance.below(draft.records.len() - 1);
    let before = draft.records[index - 1].get("id");
    let any = chance.between(1, before);
    draft.records[index].set("id", *chance.of(&[before, any]));
}

/// A kind that does not exist, or another one than the data was written for.
fn spoil_kind(chance: &mut Chance, record: &mut Form) {
    let other = chance.between(1, 8);
    let none = *chance.of(&NO_KINDS);
    record.set("kind", *chance.of(&[none, none, other]));
}

/// Bits that must be zero, in the header or (plates only) in a record.
fn set_zero_bits(chance: &mut Chance, draft: &mut Draft, index: usize) {
    let Draft { header, records } = draft;
    if records[index].has("zero") && !chance.one_in(3) {
        let bit = 1 << chance.below(20);
        records[index].set("zero", bit);
    } else if header.has("last_zero") && chance.one_in(2) {
        header.set("last_zero", chance.between(1, (1 << 27) - 1));
    } else {
        header.set("zero", chance.between(1, 7));
    }
}

/// A count that is not the number of records behind the header.
pub fn wrong_count(chance: &mut Chance, header: &mut Form) {
    let n = header.get("n");
    let highest = Version::of(header).n_highest;
    let any = chance.between(0, 511);
    let wrong = *chance.of(&[n - 1, n + 1, 0, highest, highest + 1, any]);
    header.set("n", wrong.clamp(0, 511));
}

/// By up to a record and a byte.
fn wrong_length(chance: &mut Chance, bytes: &mut Vec<u8>) {
    if chance.one_in(2) {
        let less = *chance.of(&[1, 15, 16]);
        bytes.truncate(bytes.len() - less);
    } else {
        lengthen(chance, bytes);
    }
}

fn lengthen(chance: &mut Chance, bytes: &mut Vec<u8>) {
    for _ in 0..*chance.of(&[1, 15, 16, 17]) {
        bytes.push(chance.byte());
    }
}

/// Spoils packed bytes: cut, lengthened, or some bits turned.
pub fn bytes(chance: &mut Chance, bytes: &mut Vec<u8>) {
    match chance.below(5) {
        0 => {
            let header = chance.of(VERSIONS).bytes;
            bytes.truncate(chance.below(header));
        }
        1 => bytes.truncate(chance.below(bytes.len().max(1))),
        2 => lengthen(chance, bytes),
        _ => {
            for _ in 0..*chance.of(&[1, 1, 2, 5]) {
                if bytes.is_empty() {
                    return;
                }
                let place = chance.below(bytes.len());
                bytes[place] ^= 1 << chance.below(8);
            }
        }
    }
}
