//! Sheets that the table turns away: its numbers come round, in each version; and full
//! ones with a fault at the end.

use super::chance::Chance;
use super::draft::Draft;
use super::whole::{full, sound_in, version_with_depth};
use super::{spoil, vessel};
use crate::edit::read_sheet;
use crate::version::{Version, VERSIONS};

/// What a sheet can be turned away with for what stands in it, in the order of the table.
const NUMBERS: [usize; 7] = [2, 3, 9, 4, 6, 7, 8];

const NO_VERSIONS: [i128; 6] = [0, 3, 4, 8, 14, 15];

#[derive(Default)]
pub struct Refused {
    next: usize,
}

impl Refused {
    pub fn draft(&mut self, chance: &mut Chance) -> Draft {
        let number = NUMBERS[self.next % NUMBERS.len()];
        let version = &VERSIONS[self.next / NUMBERS.len() % VERSIONS.len()];
        self.next += 1;
        of_version(chance, version, number)
    }
}

/// In either version.
pub fn with_number(chance: &mut Chance, number: usize) -> Draft {
    let version = chance.of(VERSIONS);
    of_version(chance, version, number)
}

/// Tried until it is turned away with this number: a field put to an end of its values
/// may be sound.
fn of_version(chance: &mut Chance, version: &'static Version, number: usize) -> Draft {
    let version = match number {
        9 => version_with_depth(chance),
        _ => version,
    };
    loop {
        let n = chance.between(2, 6);
        let mut draft = sound_in(chance, version, n);
        spoil_for(chance, &mut draft, number);
        let sheet = draft.bytes();
        let refusal = read_sheet(&sheet, sheet.len()).err();
        if refusal.is_some_and(|refusal| refusal.number == number) {
            return draft;
        }
    }
}

fn spoil_for(chance: &mut Chance, draft: &mut Draft, number: usize) {
    let record = chance.below(draft.records.len());
    match number {
        2 => draft.header.set("version", *chance.of(&NO_VERSIONS)),
        3 => spoil::header_field_to_an_end(chance, &mut draft.header),
        9 => vessel::make_slender(chance, &mut draft.header),
        4 => spoil::wrong_count(chance, &mut draft.header),
        6 => spoil::no_kind(chance, &mut draft.records[record]),
        7 => spoil::record_field_to_an_end(chance, &mut draft.records[record]),
        8 => spoil::order(chance, draft),
        _ => panic!("no sheet for refusal {number}"),
    }
}

/// A fault far back, so that its place is a great number.
pub fn full_with_a_fault_at_its_end(chance: &mut Chance) -> Draft {
    let mut draft = full(chance);
    spoil::last_record(chance, &mut draft);
    draft
}
