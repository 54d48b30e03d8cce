//! A sheet in and out as comma-separated text: a line for the header's fields, then one
//! for each record, numbers in plain decimal, no zero bits. The lines are made into a
//! sheet whatever that is worth, and this is then read as every sheet is.

use crate::bits::BitWriter;
use crate::edit::read_sheet;
use crate::fields::{lines, unfilled, Line, QuoteFault};
use crate::form::{entered, record_layout, Form, Layout, RECORD_BYTES};
use crate::refusal::Refusal;
use crate::sheet::Record;
use crate::version::{Version, SHORTEST_HEADER};
use std::num::IntErrorKind;

/// The version and the kind have so many bits.
const FIRST_BITS: u32 = 4;

/// What a line is turned away for.
#[derive(Clone, Copy, Debug, PartialEq, Eq)]
pub enum LineFault {
    Quotes(QuoteFault),
    /// Of its first field, which says how many fields there must be.
    First(NumberFault),
    Count,
    /// Of a later field.
    Field(NumberFault),
}

#[derive(Clone, Copy, Debug, PartialEq, Eq)]
pub enum NumberFault {
    /// It is not a number written in the one way allowed.
    NotWritten,
    TooWide,
}

impl LineFault {
    fn refusal(self, index: usize) -> Refusal {
        let number = match self {
            LineFault::Count => 15,
            LineFault::Quotes(_) | LineFault::First(_) | LineFault::Field(_) => 14,
        };
        Refusal::new(number, index + 1)
    }
}

/// A number so written is the one text that it is written as again. Numbers past 128
/// bits do not get so far; they are too wide for every field.
fn value(field: &str, bits: u32) -> Result<i128, NumberFault> {
    let read = field.parse::<u128>();
    let value = read.map_err(|error| match error.kind() {
        IntErrorKind::PosOverflow => NumberFault::TooWide,
        _ => NumberFault::NotWritten,
    })?;
    if value.to_string() != field {
        Err(NumberFault::NotWritten)
    } else if value >= 1 << bits {
        Err(NumberFault::TooWide)
    } else {
        Ok(value as i128)
    }
}

/// The layout of a line that begins so; line 0 is the header's.
pub fn layout_of(first: i128, index: usize) -> Option<Layout> {
    match index {
        0 => Version::numbered(first).map(|version| version.layout),
        _ => record_layout(first),
    }
}

/// What a line is in the sheet. Where its layout is not known that is the first field
/// and zeros, which is enough to be turned away.
pub fn packed(line: &Line, index: usize) -> Result<Vec<u8>, LineFault> {
    let fields = line.as_ref().map_err(|fault| LineFault::Quotes(*fault))?;
    let first = value(&fields[0], FIRST_BITS).map_err(LineFault::First)?;
    let Some(layout) = layout_of(first, index) else {
        return Ok(unknown(first, index));
    };
    if fields.len() != entered(layout).count() {
        return Err(LineFault::Count);
    }
    let fields = fields.iter().zip(entered(layout));
    let values = fields.map(|(field, (_, bits))| value(field, *bits));
    let values: Vec<i128> = values.collect::<Result<_, _>>().map_err(LineFault::Field)?;
    Ok(Form::of_entered(layout, &values).pack())
}

fn unknown(first: i128, index: usize) -> Vec<u8> {
    let length = match index {
        0 => SHORTEST_HEADER,
        _ => RECORD_BYTES,
    };
    let mut bits = BitWriter::default();
    bits.put(first, FIRST_BITS);
    let mut bytes = bits.into_bytes();
    bytes.resize(length, 0);
    bytes
}

/// The sheet that the lines make: refusals 14 and 15.
fn sheet_of(lines: &[Line]) -> Result<Vec<u8>, Refusal> {
    let mut sheet = Vec::new();
    for (index, line) in lines.iter().enumerate() {
        sheet.extend(packed(line, index).map_err(|fault| fault.refusal(index))?);
    }
    Ok(sheet)
}

/// The fields of a form as a line has them.
pub fn fields(form: &Form) -> Vec<String> {
    form.entered().iter().map(i128::to_string).collect()
}

/// The text of a sheet, as it is written.
fn text_of(sheet: &[u8]) -> Result<String, Refusal> {
    let (header, records) = read_sheet(sheet, sheet.len())?;
    let records = records.iter().map(Record::form);
    let forms = std::iter::once(header.form()).chain(records);
    Ok(forms.map(|form| fields(&form).join(",") + "\r\n").collect())
}

/// To the front of the output, the rest of which stays as lent: refusal 5.
fn put(bytes: &[u8], output: &mut [u8]) -> Result<usize, Refusal> {
    let Some(front) = output.get_mut(..bytes.len()) else {
        return Err(Refusal::new(5, 0));
    };
    front.copy_from_slice(bytes);
    Ok(bytes.len())
}

fn read_lines(lines: &[Line], output: &mut [u8]) -> Result<usize, Refusal> {
    let sheet = sheet_of(lines)?;
    read_sheet(&sheet, sheet.len())?;
    put(&sheet, output)
}

/// Reads a text into a sheet and gives the sheet's length.
pub fn read_text(text: &[u8], output: &mut [u8]) -> Result<usize, Refusal> {
    read_lines(&lines(text), output)
}

/// The same for a table that may be filled up: where a line is at fault, it is looked at
/// again without the filling. A field that is no number (14) does not become a wrong
/// count (15) of its line by that.
pub fn read_table(text: &[u8], output: &mut [u8]) -> Result<usize, Refusal> {
    let first = read_text(text, output);
    let Err(Refusal {
        number: number @ (14 | 15),
        place,
    }) = first
    else {
        return first;
    };
    match read_lines(&unfilled(text), output) {
        Err(again) if number == 14 && again == Refusal::new(15, place) => first,
        again => again,
    }
}

/// Writes a sheet as text and gives the text's length.
pub fn write_text(sheet: &[u8], output: &mut [u8]) -> Result<usize, Refusal> {
    put(text_of(sheet)?.as_bytes(), output)
}
