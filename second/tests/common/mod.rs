//! Vessel V of the document and records to hang on it.
//! Each test file takes what it needs of these.
#![allow(dead_code, non_snake_case)]

use second::form::{Form, MEMBER, PLATE, RECORD_NUMBERS};
use second::rules::demands;
use second::sheet::{Header, Record};
use second::version::Version;

/// Vessel V in this version, as far as the fields go that all versions share.
fn vessel_in(version: i128) -> Form {
    Form::filled(
        Version::numbered(version).expect("a version").layout,
        &[
            ("version", version),
            ("L", 8000),
            ("D0", 250),
            ("H", 60),
            ("M", 20_000),
            ("ZB", 200_000),
        ],
    )
}

/// L 8000, D0 250, H 60, one run, M 20,000, ZB 200,000 (R 100,000).
pub fn vessel_v() -> Form {
    vessel_in(1)
}

/// The same in version 2, with ZDB 800,000 (R 25,000 at the inner bottom), depth 300.
pub fn vessel_v2() -> Form {
    with(&vessel_in(2), &[("ZDB", 800_000), ("depth", 300)])
}

/// Vessel V in version 2 with another hull, in cm.
pub fn hull(L: i128, H: i128, depth: i128) -> Form {
    with(&vessel_v2(), &[("L", L), ("H", H), ("depth", depth)])
}

pub fn vessels() -> [Form; 2] {
    [vessel_v(), vessel_v2()]
}

/// How many bytes the header takes.
pub fn header_bytes(header: &Form) -> usize {
    header.pack().len()
}

pub fn with(form: &Form, fields: &[(&str, i128)]) -> Form {
    let mut form = form.clone();
    form.fill(fields);
    form
}

/// A plate with K 1000, S 500, no ballast, z 0; transverse ones have b1 250, b2 50.
pub fn plate(kind: i128) -> Form {
    let form = Form::filled(
        PLATE,
        &[("kind", kind), ("id", 1), ("K", 1000), ("S", 500), ("T", 1)],
    );
    if kind == 1 || kind == 3 {
        with(&form, &[("b1", 250), ("b2", 50)])
    } else {
        form
    }
}

/// A member with K 1000, S 500, l 300, both end coefficients 100, z 0.
pub fn member(kind: i128) -> Form {
    let form = Form::filled(
        MEMBER,
        &[
            ("kind", kind),
            ("id", 1),
            ("S", 500),
            ("l", 300),
            ("T", 1),
            ("beta_b", 100),
            ("beta_s", 100),
            ("eta", 100),
            ("W", 1),
            ("A", 1),
            ("K", 1000),
        ],
    );
    if kind == 5 || kind == 8 {
        with(&form, &[("eta", 90), ("sigma1", 50)])
    } else {
        form
    }
}

/// The least numbers of the record's three rules.
pub fn required(header: &Form, record: &Form) -> [Option<i128>; 3] {
    demands(&Header::of(header), &Record::of(record)).map(|demand| demand.least())
}

pub fn sheet(header: &Form, records: &[Form]) -> Vec<u8> {
    let mut bytes = with(header, &[("n", records.len() as i128)]).pack();
    for record in records {
        bytes.extend(record.pack());
    }
    bytes
}

/// The record as an edit takes it: its fields in layout order, then zeros.
pub fn numbers(record: &Form) -> [u32; RECORD_NUMBERS] {
    let mut numbers = [0; RECORD_NUMBERS];
    for (number, value) in numbers.iter_mut().zip(&record.values) {
        *number = *value as u32;
    }
    numbers
}
