//! The stream of edits, and the cases made for it.

mod common;

use common::{numbers, plate, sheet, vessel_v};
use second::check::read_records;
use second::edit::{read_sheet, Edit};
use second::edit_stream::{framed, parts, Lent, Part};
use second::form::{MEMBER, RECORD_BYTES};
use second::make::edit_cases;
use second::print::length;
use second::refusal::Refusal;
use second::rows::ANY;
use second::sheet::read_header;
use second::tally_edits::{EditTally, BOTH, BY_VERSION, IN_ANY_VERSION};
use std::collections::BTreeSet;

/// Each part in a word: the size of a case's buffer, an edit's id, or a break.
fn words(stream: &[u8]) -> Vec<String> {
    let word = |part| match part {
        Part::Case(lent) => format!("case {} {}", lent.buffer.len(), lent.length),
        Part::Edit(Edit::Put(numbers)) => format!("put {}", numbers[1]),
        Part::Edit(Edit::Remove(id)) => format!("remove {id}"),
        Part::Broken => "broken".to_string(),
    };
    parts(stream).map(word).collect()
}

fn two_edits() -> Vec<u8> {
    let buffer = sheet(&vessel_v(), &[]);
    let lent = Lent { buffer, length: 7 };
    framed(&lent, &[Edit::Put(numbers(&plate(2))), Edit::Remove(258)])
}

#[test]
fn a_case_byte_by_byte() {
    let lent = Lent {
        buffer: vec![9, 8],
        length: 0x0102_0304,
    };
    let mut record = [0; 13];
    record[0] = 1;
    record[12] = 0xa0b0_c0d0;
    let stream = framed(&lent, &[Edit::Put(record), Edit::Remove(300)]);
    let mut expected = vec![0, 0, 0, 2, 1, 2, 3, 4, 0, 0, 0, 2, 9, 8];
    expected.extend([0, 0, 0, 0, 0, 0, 0, 1]);
    expected.extend([0; 44]);
    expected.extend([0xa0, 0xb0, 0xc0, 0xd0]);
    expected.extend([0, 0, 0, 1, 0, 0, 1, 44]);
    expected.extend([0; 48]);
    assert_eq!(stream, expected);
    let read: Vec<Part> = parts(&stream).collect();
    let edits = [Edit::Put(record), Edit::Remove(300)].map(Part::Edit);
    assert_eq!(read[0], Part::Case(lent));
    assert_eq!(read[1..], edits);
}

#[test]
fn a_stream_ends_well_only_between_cases() {
    let one = two_edits();
    let whole = ["case 12 7", "put 1", "remove 258"];
    assert_eq!(words(&[]), Vec::<String>::new());
    assert_eq!(words(&one), whole);
    assert_eq!(
        words(&[one.clone(), one.clone()].concat()),
        [whole, whole].concat()
    );
    for end in 1..one.len() {
        // An edit that came whole is there even if a later one does not.
        let there = match end {
            0..24 => 0,
            24..80 => 1,
            80..136 => 2,
            _ => 3,
        };
        let mut expected = whole[..there].to_vec();
        expected.push("broken");
        assert_eq!(words(&one[..end]), expected, "{end} bytes");
    }
}

#[test]
fn a_large_buffer_or_an_unknown_edit_breaks_a_stream() {
    let largest = Lent {
        buffer: vec![0; 65_536],
        length: 0,
    };
    assert_eq!(words(&framed(&largest, &[])), ["case 65536 0"]);
    let mut too_large = vec![0, 1, 0, 1, 0, 0, 0, 0, 0, 0, 0, 0];
    too_large.extend(vec![0; 65_537]);
    assert_eq!(words(&too_large), ["broken"]);
    for (place, byte) in [(27, 2), (26, 1), (24, 1), (24, 0x80)] {
        let mut stream = [two_edits(), two_edits()].concat();
        stream[place] = byte;
        assert_eq!(words(&stream), ["case 12 7", "broken"]);
        stream[place] = 0;
        stream[place + 56] = byte + u8::from(place == 27);
        assert_eq!(words(&stream), ["case 12 7", "put 1", "broken"]);
    }
}

#[test]
fn an_answer_is_a_line() {
    assert_eq!(length(Ok(6412)), "6412\n");
    assert_eq!(length(Err(Refusal::new(7, 12_813))), "refused 7 12813\n");
}

fn stream(seed: u64, count: usize) -> Vec<u8> {
    let cases = edit_cases(seed).take(count);
    cases
        .flat_map(|(lent, edits)| framed(&lent, &edits))
        .collect()
}

#[test]
fn the_seed_decides() {
    assert_eq!(stream(3, 40), stream(3, 40));
    assert_ne!(stream(3, 40), stream(4, 40));
}

#[test]
fn three_thousand_cases_bring_up_every_row() {
    let tally = EditTally::of(&stream(7, 3000));
    assert_eq!(tally.cases, 3000);
    assert!(!tally.broken);
    assert_eq!(tally.complaints(), Vec::<String>::new());
    let in_any = IN_ANY_VERSION.iter().map(|row| tally.rows.of(row, ANY));
    let by_version = BY_VERSION.iter().chain(&[BOTH]);
    let by_version = by_version.flat_map(|row| [1, 2].map(|version| tally.rows.of(row, version)));
    assert_eq!(tally.edits, in_any.chain(by_version).sum());
    assert!(!EditTally::of(&stream(7, 60)).complaints().is_empty());
}

/// A hull without a depth is never too slender, one with a depth often enough.
#[test]
fn the_tally_complains_of_9_by_version() {
    let mut tally = EditTally::default();
    for version in [1, 2].repeat(14) {
        tally.rows.add("9 on the sheet", version);
    }
    let complaints = tally.complaints();
    for complaint in [
        "9 on the sheet in version 1: 14 and not none",
        "9 on the sheet in version 2: only 14",
    ] {
        assert!(complaints.contains(&complaint.to_string()));
    }
}

/// Put and removed, with room for a record and without, and with a sound rest or one
/// that is at fault as well.
#[test]
fn slender_hulls_are_edited_in_every_way() {
    let mut ways: BTreeSet<(bool, bool, bool)> = BTreeSet::new();
    for (Lent { buffer, length }, edits) in edit_cases(20_210_301).take(3000) {
        if read_sheet(&buffer, length) != Err(Refusal::new(9, 0)) {
            continue;
        }
        let header = read_header(&buffer[..length]).expect("9 comes after 3");
        let version = header.version();
        let sound = length == version.sheet_bytes(header.n)
            && read_records(&buffer[version.bytes..length]).is_ok();
        let room = length + RECORD_BYTES <= buffer.len();
        let puts = |edit: &Edit| matches!(edit, Edit::Put(_));
        ways.extend(edits.iter().map(|edit| (puts(edit), room, sound)));
    }
    assert_eq!(ways.len(), 8, "{ways:?}");
}

/// Every field of every kind is named on a new record, for a number just past
/// its values and for one with bits that the field has not.
#[test]
fn three_thousand_cases_bring_up_every_fault() {
    let mut named: BTreeSet<(u32, usize, bool)> = BTreeSet::new();
    for (mut lent, edits) in edit_cases(20_210_301).take(3000) {
        for edit in edits {
            let sound = read_sheet(&lent.buffer, lent.length).is_ok();
            let Err(refusal) = lent.edit(&edit) else {
                continue;
            };
            if let (true, 7, Edit::Put(numbers)) = (sound, refusal.number, edit) {
                let field = refusal.place % 32;
                named.insert((numbers[0], field, numbers[field - 1] >= 1 << 20));
            }
        }
    }
    for kind in 1..=8 {
        let last = if kind <= 4 { 12 } else { MEMBER.len() };
        for field in 2..=last {
            for far in [false, true] {
                assert!(
                    named.contains(&(kind, field, far)),
                    "kind {kind} field {field} {far}"
                );
            }
        }
    }
}
