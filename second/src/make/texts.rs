//! Texts to be read and sheets to be written as text, with the outputs lent for them.

use super::chance::Chance;
use super::draft::Draft;
use super::headers::Headers;
use super::page::Page;
use super::refused::{full_with_a_fault_at_its_end, with_number, Refused};
use super::slips::{self, Slips};
use super::tables;
use super::whole::{full, noise, sound, sound_in};
use super::{damage, spoil};
use crate::rest::LONGEST;
use crate::text::layout_of;
use crate::text_stream::{Case, What};
use crate::version::{Version, SHORTEST_HEADER, VERSIONS};

/// What comes round in the cases: of the sheets to be written the cases of a header too.
pub struct Texts {
    slips: Slips,
    to_read: Refused,
    to_write: Refused,
    in_tables: Slips,
    to_fill: Refused,
    headers: Headers,
}

impl Texts {
    pub fn new() -> Texts {
        Texts {
            slips: Slips::default(),
            to_read: Refused::default(),
            to_write: Refused::default(),
            in_tables: Slips::default(),
            to_fill: Refused::default(),
            headers: Headers::new(),
        }
    }

    pub fn case(&mut self, chance: &mut Chance) -> Case {
        let (what, input) = match chance.below(3) {
            0 => (What::Write, self.sheet(chance)),
            _ => (What::Read, self.text(chance)),
        };
        lend(chance, what, input)
    }

    /// A text that a spreadsheet program has saved.
    pub fn table(&mut self, chance: &mut Chance) -> Case {
        let refused = self.to_fill.draft(chance);
        let input = tables::text(chance, &mut self.in_tables, refused);
        lend(chance, What::Table, input)
    }

    fn text(&mut self, chance: &mut Chance) -> Vec<u8> {
        match chance.below(1000) {
            0..10 => Page::of(&full(chance)).text(chance),
            10..14 => Page::of(&full_with_a_fault_at_its_end(chance)).text(chance),
            14..24 => self.with_a_slip_at_its_end(chance),
            24..185 => Page::of(&few_records(chance)).text(chance),
            185..450 => Page::of(&self.to_read.draft(chance)).text(chance),
            450..485 => with_garbage(chance),
            485..545 => with_other_lines(chance),
            545..935 => self.with_slips(chance),
            935..962 => broken_off(chance),
            962..988 => damaged(chance),
            _ => damage::no_meaning(chance),
        }
    }

    fn with_a_slip_at_its_end(&mut self, chance: &mut Chance) -> Vec<u8> {
        let mut page = Page::of(&full(chance));
        self.slips.in_last_row(chance, &mut page);
        page.text(chance)
    }

    /// On a sheet that the table would turn away, at times: a line comes before that.
    fn with_slips(&mut self, chance: &mut Chance) -> Vec<u8> {
        let draft = match chance.below(4) {
            0 => self.to_read.draft(chance),
            _ => {
                let n = chance.between(1, 6);
                sound(chance, n)
            }
        };
        let mut page = Page::of(&draft);
        let count = *chance.of(&[1, 1, 2]);
        self.slips.in_page(chance, &mut page, count);
        page.text(chance)
    }

    fn sheet(&mut self, chance: &mut Chance) -> Vec<u8> {
        match chance.below(1000) {
            0..8 => full(chance).bytes(),
            8..12 => full_with_a_fault_at_its_end(chance).bytes(),
            12..253 => few_records(chance).bytes(),
            253..753 => self.to_write.draft(chance).bytes(),
            753..893 => cut(chance),
            893..968 => self.headers.sheet(chance),
            968..984 => spoilt_as_bytes(chance),
            _ => noise(chance),
        }
    }
}

/// Sound, or with a field at or past an end of its values.
fn few_records(chance: &mut Chance) -> Draft {
    let n = *chance.of(&[0, 0, 1, 1, 2, 3, 4, 6, 8]);
    let mut draft = sound(chance, n);
    if chance.one_in(6) {
        spoil::field_to_an_end(chance, &mut draft);
    }
    draft
}

/// A version or a kind that is not known, and anything behind it, quotes out of place
/// too.
fn with_garbage(chance: &mut Chance) -> Vec<u8> {
    let number = *chance.of(&[2, 6]);
    let mut page = Page::of(&with_number(chance, number));
    for (index, row) in page.rows.iter_mut().enumerate() {
        if layout_of(row.cells[0].value(), index).is_none() {
            slips::garbage(chance, row);
            if chance.one_in(5) {
                slips::quotes(chance, row);
            }
        }
    }
    page.text(chance)
}

fn with_other_lines(chance: &mut Chance) -> Vec<u8> {
    let mut page = Page::of(&few_records(chance));
    slips::lines(chance, &mut page);
    page.text(chance)
}

fn broken_off(chance: &mut Chance) -> Vec<u8> {
    let quoted = chance.between(1, 3) as usize;
    let mut text = Page::of(&few_records(chance)).quoted(chance, quoted);
    damage::broken_off(chance, &mut text);
    text
}

fn damaged(chance: &mut Chance) -> Vec<u8> {
    let mut text = Page::of(&few_records(chance)).text(chance);
    damage::bytes(chance, &mut text);
    text
}

/// Too short for every header, or for the longer one that its version has.
fn cut(chance: &mut Chance) -> Vec<u8> {
    let versions = VERSIONS.iter();
    let longer = versions.filter(|version| version.bytes > SHORTEST_HEADER);
    let longer = *chance.of(&longer.collect::<Vec<&Version>>());
    let mut sheet = sound_in(chance, longer, 1).bytes();
    let short = chance.below(SHORTEST_HEADER);
    let nearly = SHORTEST_HEADER + chance.below(longer.bytes - SHORTEST_HEADER);
    sheet.truncate(*chance.of(&[short, nearly]));
    sheet
}

fn spoilt_as_bytes(chance: &mut Chance) -> Vec<u8> {
    let mut bytes = few_records(chance).bytes();
    spoil::bytes(chance, &mut bytes);
    bytes
}

/// An output as long as is needed, if the input is not refused, a byte or far shorter,
/// or longer.
fn lend(chance: &mut Chance, what: What, input: Vec<u8>) -> Case {
    let mut case = Case {
        what,
        input,
        output: vec![0; LONGEST],
    };
    let needed = case.run().unwrap_or(chance.below(100));
    let any = chance.below(needed + 60);
    let size = match chance.below(9) {
        0 | 1 => needed.saturating_sub(1),
        2 => *chance.of(&[0, any]),
        3 => needed + 1,
        4 => needed + any,
        _ => needed,
    };
    case.output = (0..size).map(|_| chance.byte()).collect();
    case
}
