//! The cases of length over depth that a run of sheets must hold, each by itself: L at
//! each limit and a centimetre to either side, in waves of each height, with and
//! without faults behind the header; a field of the header at fault on a hull that is
//! too slender; and in a version without a depth the shortest and the longest hull.

use crate::check::read_records;
use crate::form::Form;
use crate::limits::{in_header, WAVE_HEIGHTS};
use crate::refusal::Refusal;
use crate::sheet::Header;
use crate::slender::{greatest_ratio, is_too_slender};
use crate::version::Version;
use std::collections::BTreeSet;

#[derive(Clone, Copy, Debug, PartialEq, Eq, PartialOrd, Ord)]
pub enum HullCase {
    /// L is so many times the depth and so many centimetres more.
    AtLimit {
        H: i128,
        times: i128,
        more: i128,
        behind: FaultsBehind,
    },
    /// Too slender, but this field of the header, by its number, comes first.
    FieldFirst { field: usize },
    /// No depth: never too slender.
    NoDepth { H: i128, L: i128 },
}

use HullCase::{AtLimit, FieldFirst, NoDepth};

/// What is at fault behind the header.
#[derive(Clone, Copy, Debug, PartialEq, Eq, PartialOrd, Ord)]
pub struct FaultsBehind {
    pub wrong_length: bool,
    pub faulty_record: bool,
}

/// Every case that must come up in a version.
pub fn all(version: &Version) -> Vec<HullCase> {
    if version.has_depth() {
        let mut cases = at_limits();
        cases.extend(fields_first(version));
        cases
    } else {
        without_depth(version)
    }
}

fn limits() -> BTreeSet<i128> {
    let limits = WAVE_HEIGHTS.into_iter().filter_map(greatest_ratio);
    limits.collect()
}

/// Every limit in waves of every height, so that a test against the wrong one shows.
fn at_limits() -> Vec<HullCase> {
    let mut cases = Vec::new();
    for H in WAVE_HEIGHTS {
        for times in limits() {
            for more in [-1, 0, 1] {
                cases.extend(faults_behind().map(|behind| AtLimit {
                    H,
                    times,
                    more,
                    behind,
                }));
            }
        }
    }
    cases
}

fn faults_behind() -> [FaultsBehind; 4] {
    let each = [(false, false), (false, true), (true, false), (true, true)];
    each.map(|(wrong_length, faulty_record)| FaultsBehind {
        wrong_length,
        faulty_record,
    })
}

/// The fields behind the version whose bits hold more than is allowed.
fn fields_first(version: &Version) -> Vec<HullCase> {
    let blank = Form::blank(version.layout);
    let fields = version.layout.iter().enumerate().skip(1);
    let can_be_at_fault =
        fields.filter(|(_, (name, width))| in_header(&blank, name).highest() + 1 < 1 << width);
    can_be_at_fault
        .map(|(index, _)| FieldFirst { field: index + 1 })
        .collect()
}

fn without_depth(version: &Version) -> Vec<HullCase> {
    let lengths = in_header(&Form::blank(version.layout), "L");
    let ends = [lengths.lowest(), lengths.highest()];
    let cases = WAVE_HEIGHTS.map(|H| ends.map(|L| NoDepth { H, L }));
    cases.concat()
}

/// Which case a sheet is whose header, of this version, is there whole; it may be one
/// that need not come up.
pub fn found(
    version: &Version,
    header: &Form,
    sheet: &[u8],
    refusal: Option<Refusal>,
) -> Option<HullCase> {
    let (H, L) = (header.get("H"), header.get("L"));
    match refusal {
        Some(Refusal { number: 3, place }) => {
            is_too_slender(&Header::of(header)).then_some(FieldFirst { field: place })
        }
        _ if version.has_depth() => at_limit(version, header, sheet),
        None => Some(NoDepth { H, L }),
        Some(_) => None,
    }
}

/// The case of an allowed header and whatever stands behind it.
fn at_limit(version: &Version, header: &Form, sheet: &[u8]) -> Option<HullCase> {
    let (L, depth, n) = (header.get("L"), header.get("depth"), header.get("n"));
    let times = limits()
        .into_iter()
        .find(|times| (L - times * depth).abs() <= 1)?;
    Some(AtLimit {
        H: header.get("H"),
        times,
        more: L - times * depth,
        behind: faults_of(version, n, sheet),
    })
}

/// What is at fault behind a header of this version that counts `n` records; of these
/// those are looked at that are there whole.
fn faults_of(version: &Version, n: i128, sheet: &[u8]) -> FaultsBehind {
    let whole = sheet.len().min(version.sheet_bytes(n));
    FaultsBehind {
        wrong_length: sheet.len() != version.sheet_bytes(n),
        faulty_record: read_records(&sheet[version.bytes..whole]).is_err(),
    }
}
