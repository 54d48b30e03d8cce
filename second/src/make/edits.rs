//! Cases of edits: a buffer with a sheet in it, sound or not, and what is to be
//! put and removed, at ids that are there and at ids that are not.

use super::chance::Chance;
use super::draft::Draft;
use super::faults::Faults;
use super::whole::{noise, sound, sound_in, version_with_depth};
use super::{spoil, vessel};
use crate::edit::Edit;
use crate::edit_stream::Lent;
use crate::hull_case::FaultsBehind;
use crate::limits::ID_HIGHEST;
use crate::rest::LONGEST;
use crate::version::{Version, SHORTEST_HEADER, VERSIONS};
use std::collections::BTreeSet;

/// What the edits of a case begin with. The draft is sound even where the sheet
/// as lent is not.
struct Ground {
    lent: Lent,
    draft: Draft,
    edits: i128,
}

/// A case: what is lent, and the edits in turn.
pub fn case(chance: &mut Chance, faults: &mut Faults) -> (Lent, Vec<Edit>) {
    let ground = match chance.below(1000) {
        0 => in_the_largest_buffer(chance),
        1..21 => full(chance),
        21..250 => spoilt(chance),
        250..330 => with_a_wrong_length(chance),
        330..350 => only_noise(chance),
        350..380 => too_slender(chance),
        _ => small(chance),
    };
    let edits = edits(chance, faults, &ground);
    (ground.lent, edits)
}

/// The bytes of a sheet, and as many more of no meaning.
fn lend(chance: &mut Chance, mut bytes: Vec<u8>, more: usize) -> Lent {
    let length = bytes.len();
    bytes.extend((0..more).map(|_| chance.byte()));
    Lent {
        buffer: bytes,
        length,
    }
}

/// Room behind the sheet: for no record, for one just not, just and with a byte
/// to spare, for two likewise, and any.
fn room(chance: &mut Chance) -> usize {
    let any = chance.below(80);
    *chance.of(&[0, 1, 15, 16, 16, 17, 31, 32, 33, 48, 64, any, any])
}

/// Where the sheet is turned away each edit gets the same refusal.
fn few(chance: &mut Chance) -> i128 {
    *chance.of(&[0, 1, 1, 1, 2, 2, 3])
}

fn small(chance: &mut Chance) -> Ground {
    let n = *chance.of(&[0, 1, 1, 2, 2, 3, 3, 4, 5, 6, 8, 10, 12]);
    let draft = sound(chance, n);
    let more = room(chance);
    Ground {
        lent: lend(chance, draft.bytes(), more),
        draft,
        edits: chance.between(8, 12),
    }
}

/// Not often, since each answer is as long as the longest sheet.
fn full(chance: &mut Chance) -> Ground {
    let version = chance.of(VERSIONS);
    let n = version.n_highest - chance.of(&[0, 0, 0, 1]);
    let draft = sound_in(chance, version, n);
    let more = *chance.of(&[0, 15, 16, 16, 17, 17, 32, 33, 48]);
    Ground {
        lent: lend(chance, draft.bytes(), more),
        draft,
        edits: 8,
    }
}

fn in_the_largest_buffer(chance: &mut Chance) -> Ground {
    let n = chance.between(0, 12);
    let draft = sound(chance, n);
    let bytes = draft.bytes();
    let more = LONGEST - bytes.len();
    Ground {
        lent: lend(chance, bytes, more),
        draft,
        edits: 2,
    }
}

fn spoilt(chance: &mut Chance) -> Ground {
    let n = chance.between(1, 6);
    let draft = sound(chance, n);
    let mut spoilt = draft.clone();
    match chance.below(5) {
        0 | 1 => spoil::field_to_an_end(chance, &mut spoilt),
        2 => spoil::last_record(chance, &mut spoilt),
        _ => spoil::draft(chance, &mut spoilt),
    }
    let mut bytes = spoilt.bytes();
    if chance.one_in(6) {
        spoil::bytes(chance, &mut bytes);
    }
    let more = room(chance);
    Ground {
        lent: lend(chance, bytes, more),
        draft,
        edits: few(chance),
    }
}

/// A hull that is too slender; half of them have more at fault behind the header.
fn too_slender(chance: &mut Chance) -> Ground {
    let version = version_with_depth(chance);
    let n = chance.between(3, 6);
    let draft = sound_in(chance, version, n);
    let mut slender = draft.clone();
    vessel::make_slender(chance, &mut slender.header);
    let faults = FaultsBehind {
        wrong_length: chance.one_in(3),
        faulty_record: chance.one_in(3),
    };
    let bytes = spoil::behind_the_header(chance, slender, faults);
    let more = room(chance);
    Ground {
        lent: lend(chance, bytes, more),
        draft,
        edits: few(chance),
    }
}

/// A sound sheet whose length is stated past the buffer, under its header's or
/// beside the right one.
fn with_a_wrong_length(chance: &mut Chance) -> Ground {
    let n = chance.between(0, 4);
    let draft = sound(chance, n);
    let more = room(chance);
    let mut lent = lend(chance, draft.bytes(), more);
    let (right, size) = (lent.length, lent.buffer.len());
    lent.length = match chance.below(7) {
        0 => *chance.of(&[size + 1, size + 16, size + 4096, 1 << 31, u32::MAX as usize]),
        1..4 => {
            // Too short to look at the version, or for the header of this one.
            let header = Version::of(&draft.header).bytes;
            let short = (SHORTEST_HEADER + chance.below(8)).min(header - 1);
            *chance.of(&[0, 10, 11, short, short, short, short])
        }
        4 => *chance.of(&[right - 1, right.saturating_sub(16)]),
        5 => *chance.of(&[right + 1, right + 16]),
        _ => {
            // The buffer ends within the sheet, which is stated whole or so short.
            lent.buffer.truncate(chance.below(right));
            *chance.of(&[right, lent.buffer.len()])
        }
    };
    Ground {
        lent,
        draft,
        edits: few(chance),
    }
}

fn only_noise(chance: &mut Chance) -> Ground {
    let bytes = noise(chance);
    let more = room(chance);
    Ground {
        lent: lend(chance, bytes, more),
        draft: sound(chance, 0),
        edits: few(chance),
    }
}

/// The edits are done as they are made, so that each knows which ids are there.
fn edits(chance: &mut Chance, faults: &mut Faults, ground: &Ground) -> Vec<Edit> {
    let Ground { draft, .. } = ground;
    let n_highest = Version::of(&draft.header).n_highest;
    let mut lent = ground.lent.clone();
    let mut ids: BTreeSet<i128> = draft.records.iter().map(|form| form.get("id")).collect();
    let mut last = chance.between(1, ID_HIGHEST);
    let mut edits = Vec::new();
    for _ in 0..ground.edits {
        // A full sheet is there for the ids that it has no room for.
        let crowded = ids.len() as i128 >= n_highest - 1 && !chance.one_in(4);
        let id = match chance.below(8) {
            _ if crowded => not_there(chance, &ids),
            // The one just edited again: put and removed, removed and put.
            0 | 1 => last,
            2..5 => there(chance, &ids),
            _ => not_there(chance, &ids),
        };
        let puts = if ids.contains(&id) { 2 } else { 4 };
        let edit = if chance.below(5) < puts {
            Edit::Put(faults.numbers(chance, &draft.header, id))
        } else {
            Edit::Remove(removed(chance, id))
        };
        if lent.edit(&edit).is_ok() {
            match &edit {
                Edit::Put(numbers) => ids.insert(i128::from(numbers[1])),
                Edit::Remove(id) => ids.remove(&i128::from(*id)),
            };
        }
        last = id;
        edits.push(edit);
    }
    edits
}

/// An id of the sheet, its first and last more often than others.
fn there(chance: &mut Chance, ids: &BTreeSet<i128>) -> i128 {
    let ids: Vec<i128> = ids.iter().copied().collect();
    match (ids.first(), ids.last()) {
        (Some(first), Some(last)) => {
            let any = *chance.of(&ids);
            *chance.of(&[*first, *last, any, any])
        }
        _ => chance.between(1, ID_HIGHEST),
    }
}

/// An id that is free: before the first, past the last, close to one of the
/// sheet's, at either end of the range, or any.
fn not_there(chance: &mut Chance, ids: &BTreeSet<i128>) -> i128 {
    let first = ids.first().copied().unwrap_or(ID_HIGHEST);
    let last = ids.last().copied().unwrap_or(1);
    let beside = there(chance, ids) + chance.of(&[-1, 1]);
    let any = chance.between(1, ID_HIGHEST);
    let wanted = *chance.of(&[1, ID_HIGHEST, first - 1, last + 1, beside, beside, any, any]);
    let wanted = wanted.clamp(1, ID_HIGHEST);
    let mut from_there = (wanted..=ID_HIGHEST).chain(1..wanted);
    let free = from_there.find(|id| !ids.contains(id));
    free.expect("a sheet holds fewer records than there are ids")
}

/// The id to remove; at times one that no record can have, with the low bits of
/// one that is there.
fn removed(chance: &mut Chance, id: i128) -> u32 {
    let id = id as u32;
    match chance.below(16) {
        0 => *chance.of(&[0, 1001, 1023, 1024, 65_535, 65_536, u32::MAX]),
        1 => id + chance.of(&[1 << 10, 1 << 16, 1 << 31]),
        _ => id,
    }
}
