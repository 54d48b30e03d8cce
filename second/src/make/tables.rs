//! Texts that a spreadsheet program has saved: every line as long as the longest, filled
//! up with empty fields, and lines of nothing else at the end; sound, or with something
//! in them that only looks like filling.

use super::chance::Chance;
use super::draft::Draft;
use super::page::{Cell, Page, Row};
use super::slips::{self, Slips};
use super::{damage, spoil, whole::sound};

const EMPTY: Cell = Cell::Raw(Vec::new());

/// What can stand where filling does.
const OTHERS: [&[u8]; 7] = [b"\"\"", b"\"\"", b"\r", b" ", b"0", b"\"\r\"", b"\"\"\""];

/// A filled text.
pub fn text(chance: &mut Chance, slips: &mut Slips, refused: Draft) -> Vec<u8> {
    let n = chance.between(0, 5);
    let sound = sound(chance, n);
    let mut page = match chance.below(8) {
        0 | 1 => Page::of(&refused),
        2 => with_a_field_at_an_end(chance, sound),
        3 => with_a_slip(chance, slips, sound),
        _ => Page::of(&sound),
    };
    if chance.one_in(8) {
        short_of_a_field(chance, &mut page);
    }
    match chance.below(12) {
        0 | 1 => {}
        2 => last_fields_empty(chance, &mut page),
        _ => fill(chance, &mut page),
    }
    match chance.below(16) {
        0..4 => another_in_place_of_filling(chance, &mut page),
        4..6 => another_behind_the_last(chance, &mut page),
        6 => empty_inside(chance, &mut page),
        7 => blank_line_inside(chance, &mut page),
        8 => {
            let row = chance.below(page.rows.len());
            slips::quotes(chance, &mut page.rows[row]);
        }
        _ => {}
    }
    let mut text = page.text(chance);
    match chance.below(16) {
        0 => damage::bytes(chance, &mut text),
        1 => text.extend(b"\r"),
        _ => {}
    }
    text
}

fn with_a_field_at_an_end(chance: &mut Chance, mut draft: Draft) -> Page {
    spoil::field_to_an_end(chance, &mut draft);
    Page::of(&draft)
}

fn with_a_slip(chance: &mut Chance, slips: &mut Slips, draft: Draft) -> Page {
    let mut page = Page::of(&draft);
    slips.in_page(chance, &mut page, 1);
    page
}

fn any_row<'a>(chance: &mut Chance, page: &'a mut Page) -> &'a mut Row {
    let row = chance.below(page.rows.len());
    &mut page.rows[row]
}

/// The last cells of a line are not there.
fn short_of_a_field(chance: &mut Chance, page: &mut Page) {
    let row = any_row(chance, page);
    let left = row.cells.len() - chance.below(row.cells.len().min(3));
    row.cells.truncate(left);
}

/// With its commas, so that the line has as many fields as it should.
fn last_fields_empty(chance: &mut Chance, page: &mut Page) {
    let row = any_row(chance, page);
    let left = row.cells.len() - chance.between(1, 2) as usize;
    row.cells[left..].fill(EMPTY);
}

/// Up to the longest line, or some more, and lines of nothing else; at times one line is
/// left as it is.
fn fill(chance: &mut Chance, page: &mut Page) {
    let longest = page.rows.iter().map(|row| row.cells.len()).max();
    let width = longest.unwrap_or(1) + *chance.of(&[0, 0, 0, 1, 3]);
    let left = chance.below(4 * page.rows.len());
    for (index, row) in page.rows.iter_mut().enumerate() {
        if index != left {
            row.cells.resize(width.max(row.cells.len()), EMPTY);
        }
    }
    for _ in 0..*chance.of(&[0, 0, 0, 1, 2, 5]) {
        let width = *chance.of(&[width, width, 1]);
        page.rows.push(blank(page, width));
    }
}

fn blank(page: &Page, width: usize) -> Row {
    Row {
        layout: page.rows[0].layout,
        cells: vec![EMPTY; width],
    }
}

fn another(chance: &mut Chance) -> Cell {
    Cell::Raw(chance.of(&OTHERS).to_vec())
}

/// In the last field of a line or among the last ones.
fn another_in_place_of_filling(chance: &mut Chance, page: &mut Page) {
    let cell = another(chance);
    let row = any_row(chance, page);
    let place = row.cells.len() - 1 - chance.below(row.cells.len().min(3));
    row.cells[place] = cell;
}

/// A CR, or a blank, behind the last field that says something.
fn another_behind_the_last(chance: &mut Chance, page: &mut Page) {
    let more = *chance.of(&[b"\r", b"\r", b" "]);
    let row = any_row(chance, page);
    let last = row.cells.iter_mut().rfind(|cell| !cell.bytes().is_empty());
    if let Some(cell) = last {
        let quoted = [b"\"", cell.bytes(), b"\""].concat();
        let said = chance.of(&[cell.bytes().to_vec(), quoted]).clone();
        *cell = Cell::Raw([&said[..], more].concat());
    }
}

fn empty_inside(chance: &mut Chance, page: &mut Page) {
    let row = any_row(chance, page);
    let place = chance.below(row.cells.len());
    row.cells.insert(place, EMPTY);
}

fn blank_line_inside(chance: &mut Chance, page: &mut Page) {
    let width = page.rows[0].cells.len();
    let place = chance.below(page.rows.len());
    page.rows.insert(place, blank(page, width));
}
