//! Sheets for the cases of a header, each in its turn, so that some thousand sheets
//! bring up every one of them.

use super::chance::Chance;
use super::draft::Draft;
use super::hulls;
use super::whole::{sound, sound_in};
use crate::header_case::all;
use crate::header_case::HeaderCase::{self, Behind, Cut, Field, Full, Hull, Unknown};
use crate::version::{Version, SHORTEST_HEADER, VERSIONS};

pub struct Headers {
    cases: Vec<HeaderCase>,
    next: usize,
}

impl Headers {
    pub fn new() -> Headers {
        Headers {
            cases: all().into_iter().collect(),
            next: 0,
        }
    }

    pub fn sheet(&mut self, chance: &mut Chance) -> Vec<u8> {
        let case = self.cases[self.next % self.cases.len()];
        self.next += 1;
        made(chance, case)
    }
}

fn known(number: i128) -> &'static Version {
    Version::numbered(number).expect("a version of the table")
}

fn few_records(chance: &mut Chance, version: &Version) -> Draft {
    let n = chance.between(0, 3);
    sound_in(chance, version, n)
}

fn made(chance: &mut Chance, case: HeaderCase) -> Vec<u8> {
    match case {
        Cut { version, bytes } => cut(chance, known(version), bytes),
        Unknown { version, short } => unknown(chance, version, short),
        Field {
            version,
            field,
            value,
        } => with_field(chance, known(version), field, value),
        Behind { version, bytes } => behind(chance, known(version), bytes),
        Full { version, past } => full(chance, known(version), past),
        Hull { version, hull } => hulls::sheet(chance, known(version), hull),
    }
}

fn cut(chance: &mut Chance, version: &Version, bytes: usize) -> Vec<u8> {
    let mut sheet = few_records(chance, version).bytes();
    sheet.truncate(bytes);
    sheet
}

fn unknown(chance: &mut Chance, version: i128, short: bool) -> Vec<u8> {
    // With one record a sheet of any version is long enough for every header.
    let n = chance.between(1, 3);
    let mut draft = sound(chance, n);
    draft.header.set("version", version);
    let mut sheet = draft.bytes();
    if short {
        let longest = VERSIONS.iter().map(|version| version.bytes).max();
        let under = longest.unwrap_or(0) - SHORTEST_HEADER;
        sheet.truncate(SHORTEST_HEADER + chance.below(under));
    }
    sheet
}

/// Whatever the value, the hull is not too slender: it is deep, or in still water.
fn with_field(chance: &mut Chance, version: &Version, field: usize, value: i128) -> Vec<u8> {
    let name = version.layout[field - 1].0;
    let mut draft = match name {
        "n" => sound_in(chance, version, value.min(version.n_highest)),
        _ => few_records(chance, version),
    };
    draft.header.values[field - 1] = value;
    match name {
        "L" | "H" if version.has_depth() => draft.header.set("depth", 1000),
        "depth" => draft.header.set("H", 0),
        _ => {}
    }
    draft.bytes()
}

fn behind(chance: &mut Chance, version: &Version, bytes: usize) -> Vec<u8> {
    let n = *chance.of(&[1, 2, 3, version.n_highest]);
    let mut sheet = sound_in(chance, version, n).bytes();
    let length = version.sheet_bytes(n) - version.bytes + bytes;
    sheet.resize_with(length, || chance.byte());
    sheet
}

fn full(chance: &mut Chance, version: &Version, past: bool) -> Vec<u8> {
    let mut sheet = sound_in(chance, version, version.n_highest).bytes();
    if past {
        sheet.push(chance.byte());
    }
    sheet
}

#[cfg(test)]
mod tests {
    use super::*;
    use crate::header_case::found;
    use crate::print::verdicts;

    #[test]
    fn each_sheet_is_the_case_that_it_is_made_for() {
        let mut chance = Chance::new(8);
        for case in all() {
            let sheet = made(&mut chance, case);
            let refusal = verdicts(&sheet).err();
            assert!(found(&sheet, refusal).contains(&case), "{case:?}");
        }
    }
}
