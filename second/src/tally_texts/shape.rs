//! How a text was put down, what else stood in it, and how long an output was lent.

use crate::fields::{lines, Line};
use crate::refusal::Refusal;
use crate::rest::LONGEST;
use crate::sheet::read_header;
use crate::slender::is_too_slender;
use crate::text::{layout_of, packed, write_text};
use crate::text_stream::{Case, What};

/// Every shape that must come up: of texts that are read, of texts that are turned away,
/// and of outputs.
pub const SHAPES: [&str; 21] = [
    "read as it would be written",
    "read with some fields quoted",
    "read with all fields quoted",
    "read with LF alone",
    "read with both line ends",
    "read without the last line end",
    "read without a record",
    "read with 400 records",
    "a quote in a field",
    "a comma in a field",
    "a LF in a field",
    "a CR in a field",
    "a byte-order mark",
    "several lines at fault",
    "a line past the 255th at fault",
    "a line and the header at fault",
    "an unknown kind and no numbers",
    "output as long as needed",
    "output longer",
    "output a byte too short",
    "no output where one is needed",
];

/// The names of which it is so.
fn named<const COUNT: usize>(shapes: [(&'static str, bool); COUNT]) -> Vec<&'static str> {
    let shapes = shapes.into_iter().filter(|shape| shape.1);
    shapes.map(|shape| shape.0).collect()
}

pub fn of(case: &Case, outcome: Result<usize, Refusal>) -> Vec<&'static str> {
    let mut shapes = of_output(case, outcome);
    if case.what == What::Read {
        shapes.extend(match outcome {
            Ok(length) => of_text(&case.input, &case.output[..length]),
            Err(refusal) => of_faults(&lines(&case.input), refusal),
        });
    }
    shapes
}

fn of_output(case: &Case, outcome: Result<usize, Refusal>) -> Vec<&'static str> {
    let size = case.output.len();
    let mut with_room = Case {
        output: vec![0; LONGEST],
        ..case.clone()
    };
    let Ok(needed) = with_room.run() else {
        return Vec::new();
    };
    named([
        ("output as long as needed", outcome == Ok(size)),
        ("output longer", size > needed),
        ("output a byte too short", size + 1 == needed),
        ("no output where one is needed", size == 0),
    ])
}

/// Of a text that is read as this sheet: no field has more in it than digits.
fn of_text(text: &[u8], sheet: &[u8]) -> Vec<&'static str> {
    let count = |part: &[u8]| text.windows(part.len()).filter(|at| *at == part).count();
    let records = lines(text).len() - 1;
    let (quotes, fields) = (count(b"\""), count(b",") + 1 + records);
    let (ends, with_cr) = (count(b"\n"), count(b"\r\n"));
    let mut written = vec![0; LONGEST];
    let length = write_text(sheet, &mut written).expect("a sheet that was read");
    named([
        ("read as it would be written", written[..length] == *text),
        (
            "read with some fields quoted",
            0 < quotes && quotes < 2 * fields,
        ),
        ("read with all fields quoted", quotes == 2 * fields),
        ("read with LF alone", ends > 0 && with_cr == 0),
        ("read with both line ends", 0 < with_cr && with_cr < ends),
        ("read without the last line end", ends == records),
        ("read without a record", records == 0),
        ("read with 400 records", records == 400),
    ])
}

/// Of the lines of a text that is turned away so.
fn of_faults(lines: &[Line], refusal: Refusal) -> Vec<&'static str> {
    let fields = || lines.iter().flatten().flatten();
    let has = |part| fields().any(|field| field.contains(part));
    let indexed = || lines.iter().enumerate();
    let at_fault = indexed().filter(|(index, line)| packed(line, *index).is_err());
    let at_fault = at_fault.count();
    let far_back = refusal.place > 255;
    let unknown = |(index, line)| is_unknown_and_no_numbers(line, index);
    named([
        ("a quote in a field", has("\"")),
        ("a comma in a field", has(",")),
        ("a LF in a field", has("\n")),
        ("a CR in a field", has("\r")),
        ("a byte-order mark", has("\u{ef}\u{bb}\u{bf}")),
        ("several lines at fault", at_fault > 1),
        ("a line past the 255th at fault", at_fault > 0 && far_back),
        (
            "a line and the header at fault",
            at_fault > 0 && is_turned_away(&lines[0]),
        ),
        ("an unknown kind and no numbers", indexed().any(unknown)),
    ])
}

/// Whether a line is a header that the table turns away.
fn is_turned_away(line: &Line) -> bool {
    let Ok(header) = packed(line, 0) else {
        return false;
    };
    read_header(&header).map_or(true, |header| is_too_slender(&header))
}

/// Whether a version or kind that is not known has something else behind it.
fn is_unknown_and_no_numbers(line: &Line, index: usize) -> bool {
    let (Ok(fields), Ok(_)) = (line, packed(line, index)) else {
        return false;
    };
    let is_number = |field: &String| field.parse::<u128>().is_ok();
    let known = fields[0]
        .parse()
        .is_ok_and(|first| layout_of(first, index).is_some());
    !known && !fields.iter().all(is_number)
}
