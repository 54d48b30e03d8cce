//! What can be wrong with the lines of a text.

use super::cells::{no_number, too_wide};
use super::chance::Chance;
use super::page::{Cell, Page, Row};
use crate::form::{entered, Layout, MEMBER, PLATE};
use std::collections::BTreeMap;

#[derive(Clone, Copy, PartialEq, Eq, PartialOrd, Ord)]
enum Slip {
    Quotes,
    First,
    Count,
    NoNumber,
    TooWide,
    /// The greatest number that the field's bits hold, which is seldom allowed.
    JustFits,
}

use Slip::{Count, First, JustFits, NoNumber, Quotes, TooWide};

/// As they come round; each meets each sort of line, as three does not divide their
/// number.
const SLIPS: [Slip; 19] = [
    Count, Quotes, NoNumber, First, Count, TooWide, Quotes, Count, JustFits, First, Quotes, Count,
    NoNumber, Count, TooWide, First, Quotes, Count, JustFits,
];

/// The slips come round, and so do the lines that they are made in: the header's, a
/// plate's, a member's; and for numbers the fields of each layout, so that some thousand
/// texts bring up every one of them.
#[derive(Default)]
pub struct Slips {
    slip: usize,
    line: usize,
    fields: BTreeMap<(Layout, Slip), usize>,
}

impl Slips {
    /// So many slips, in one line or in several.
    pub fn in_page(&mut self, chance: &mut Chance, page: &mut Page, count: usize) {
        let mut place = self.place(chance, page);
        let mut slip = SLIPS[self.slip % SLIPS.len()];
        self.slip += 1;
        for _ in 0..count {
            self.in_row(chance, &mut page.rows[place], slip);
            slip = *chance.of(&SLIPS);
            if chance.one_in(2) {
                place = self.place(chance, page);
            }
        }
    }

    /// Far back in a long text.
    pub fn in_last_row(&mut self, chance: &mut Chance, page: &mut Page) {
        let slip = *chance.of(&SLIPS);
        let last = page.rows.last_mut().expect("a header at least");
        self.in_row(chance, last, slip);
    }

    /// Where no such line is there, the header's.
    fn place(&mut self, chance: &mut Chance, page: &Page) -> usize {
        let header = page.rows[0].layout;
        let wanted = [header, PLATE, MEMBER][self.line % 3];
        self.line += 1;
        let rows = page.rows.iter().enumerate();
        let rows = rows.filter(|(_, row)| row.layout == wanted);
        let places: Vec<usize> = rows.map(|(index, _)| index).collect();
        match places[..] {
            [] => 0,
            _ => *chance.of(&places),
        }
    }

    fn in_row(&mut self, chance: &mut Chance, row: &mut Row, slip: Slip) {
        match slip {
            Quotes => quotes(chance, row),
            First => first(chance, row),
            Count => count(chance, row),
            NoNumber | TooWide | JustFits => self.number(chance, row, slip),
        }
    }

    /// In a later field than the first.
    fn number(&mut self, chance: &mut Chance, row: &mut Row, slip: Slip) {
        let next = self.fields.entry((row.layout, slip)).or_default();
        *next += 1;
        let widths: Vec<u32> = entered(row.layout).map(|field| field.1).collect();
        let later = widths.len() - 1;
        let index = 1 + *next % later;
        let (bits, by_one) = (widths[index], (*next / later).is_multiple_of(2));
        // After another slip there may be fewer fields.
        if let Some(cell) = row.cells.get_mut(index) {
            let value = cell.value();
            *cell = match slip {
                NoNumber => Cell::Says(no_number(chance, value)),
                TooWide if by_one => Cell::number(1 << bits),
                TooWide => Cell::Says(too_wide(chance, value, bits)),
                _ => Cell::number((1 << bits) - 1),
            };
        }
    }
}

/// A quote out of place, none that closes, or more behind the one that does.
pub fn quotes(chance: &mut Chance, row: &mut Row) {
    let index = chance.below(row.cells.len());
    let said = row.cells[index].bytes();
    let place = chance.below(said.len() + 1);
    let (front, back) = said.split_at(place);
    let (start, rest) = said.split_at(place.max(1).min(said.len()));
    let more = *chance.of(&[b"x", b" ", b"0", b"\r", b"'", b"\0"]);
    let raw = match chance.below(8) {
        0 => [start, b"\"", rest].concat(),
        1 => [said, b"\""].concat(),
        2 => [more, &b"\""[..], said, b"\""].concat(),
        3 => [b"\"", said].concat(),
        4 => [b"\"", front, b"\"\"", back].concat(),
        5 => [b"\"", front, b"\"", back, b"\""].concat(),
        6 => [b"\"\"", said].concat(),
        _ => [b"\"", said, b"\"", more].concat(),
    };
    row.cells[index] = Cell::Raw(raw);
}

/// No version and no kind, known or unknown; or the first field is not there.
fn first(chance: &mut Chance, row: &mut Row) {
    let value = row.cells[0].value();
    match chance.below(9) {
        0 if row.cells.len() > 1 => {
            row.cells.remove(0);
        }
        0..5 => row.cells[0] = Cell::Says(too_wide(chance, value, row.layout[0].1)),
        _ => row.cells[0] = Cell::Says(no_number(chance, value)),
    }
}

/// Fields more or fewer; some of those that are more could be zero bits, or a number of
/// them that a byte does not count.
fn count(chance: &mut Chance, row: &mut Row) {
    let cells = &mut row.cells;
    let any = chance.below(cells.len());
    match chance.below(8) {
        0 => cells.push(Cell::Says(Vec::new())),
        1 => cells.push(Cell::number(0)),
        2 => cells.extend(vec![Cell::number(0); *chance.of(&[2, 256])]),
        3 => cells.insert(any, cells[any].clone()),
        4 => cells.truncate((cells.len() - 1).max(1)),
        5 => cells.truncate(cells.len().saturating_sub(2).max(1)),
        6 => cells.truncate(1 + any),
        _ if any > 0 => {
            cells.remove(any);
        }
        _ => cells.truncate(1),
    }
}

/// Anything at all behind the first field.
pub fn garbage(chance: &mut Chance, row: &mut Row) {
    row.cells.truncate(1);
    for _ in 0..chance.below(15) {
        let value = chance.between(0, 2000);
        let any = (0..chance.below(6)).map(|_| chance.byte()).collect();
        let telling = no_number(chance, value);
        let said = chance.of(&[any, telling]).clone();
        row.cells.push(Cell::Says(said));
    }
}

/// A line more or less, as many more as a byte or the count's bits do not count, or lines
/// in another order; most often an empty one more.
pub fn lines(chance: &mut Chance, page: &mut Page) {
    let rows = &mut page.rows;
    let any = chance.below(rows.len());
    let place = *chance.of(&[any, rows.len(), rows.len()]);
    let last = rows.len() - 1;
    match chance.below(20) {
        0 => rows.insert(place, rows[any].clone()),
        1 if last > 0 => {
            rows.remove(any);
        }
        2 => rows.swap(any, last),
        3 => {
            let more = vec![rows[last].clone(); *chance.of(&[256, 512])];
            rows.extend(more);
        }
        sort => {
            let text = match sort {
                4 => *chance.of(&[" ", "\r", "\x1a", "\0"]),
                5 => *chance.of(&[",", ",,,,,,,", ",,,,,,,,,,", "\"\"", "\"\",\"\""]),
                _ => "",
            };
            let cells = vec![Cell::Raw(text.into())];
            let layout = rows[any].layout;
            rows.insert(place, Row { layout, cells });
        }
    }
}
