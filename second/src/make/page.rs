//! A text whose fields can still be changed, and the ways to write it out.

use super::chance::Chance;
use super::draft::Draft;
use crate::form::{Form, Layout};
use crate::text::fields;

const CR_LF: &[u8] = b"\r\n";
const LF: &[u8] = b"\n";

#[derive(Clone)]
pub enum Cell {
    /// What the field says; quotes stand around it if it needs them, or by chance.
    Says(Vec<u8>),
    /// Put down as it is, quotes and all.
    Raw(Vec<u8>),
}

/// A line of a text.
#[derive(Clone)]
pub struct Row {
    /// That of the form it was made from, whatever is done to its fields.
    pub layout: Layout,
    pub cells: Vec<Cell>,
}

#[derive(Clone)]
pub struct Page {
    pub rows: Vec<Row>,
}

impl Cell {
    pub fn number(value: i128) -> Cell {
        Cell::Says(value.to_string().into_bytes())
    }

    /// What it says, or how it is put down.
    pub fn bytes(&self) -> &[u8] {
        match self {
            Cell::Says(bytes) | Cell::Raw(bytes) => bytes,
        }
    }

    /// 0 if it is no number, or none that a field can hold.
    pub fn value(&self) -> i128 {
        let digits = std::str::from_utf8(self.bytes()).unwrap_or_default();
        i128::from(digits.parse::<u32>().unwrap_or(0))
    }

    fn written(&self, quoted: bool) -> Vec<u8> {
        match self {
            Cell::Says(bytes) if quoted || bytes.iter().any(|byte| b"\",\n".contains(byte)) => {
                let doubled = bytes.iter().map(|byte| match byte {
                    b'"' => b"\"\"",
                    byte => std::slice::from_ref(byte),
                });
                [b"\"", &doubled.collect::<Vec<_>>().concat()[..], b"\""].concat()
            }
            Cell::Says(bytes) | Cell::Raw(bytes) => bytes.clone(),
        }
    }
}

impl Row {
    fn of(form: &Form) -> Row {
        let fields = fields(form).into_iter();
        Row {
            layout: form.layout,
            cells: fields.map(|field| Cell::Says(field.into_bytes())).collect(),
        }
    }
}

impl Page {
    pub fn of(draft: &Draft) -> Page {
        let forms = std::iter::once(&draft.header).chain(&draft.records);
        Page {
            rows: forms.map(Row::of).collect(),
        }
    }

    /// With quotes around none, some or all of its fields. One text in seven is as the
    /// program writes it.
    pub fn text(&self, chance: &mut Chance) -> Vec<u8> {
        let quoted_of_three = *chance.of(&[0, 0, 1, 2, 3]);
        self.quoted(chance, quoted_of_three)
    }

    /// With quotes around so many of three fields, one of the line ends or both, the last
    /// one there or not.
    pub fn quoted(&self, chance: &mut Chance, quoted_of_three: usize) -> Vec<u8> {
        let ends = *chance.of(&[&[CR_LF][..], &[CR_LF], &[LF], &[LF, CR_LF]]);
        let mut text = Vec::new();
        let mut end = LF;
        for row in &self.rows {
            let cells = row.cells.iter();
            let cells = cells.map(|cell| cell.written(chance.below(3) < quoted_of_three));
            text.extend(cells.collect::<Vec<_>>().join(&b','));
            end = *chance.of(ends);
            text.extend(end);
        }
        if chance.one_in(4) {
            text.truncate(text.len().saturating_sub(end.len()));
        }
        text
    }
}
