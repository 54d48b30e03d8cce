//! The cases of a header that a run of sheets must hold, each by itself: cut short,
//! of a version that is not there, with a field at an end of its values or past it,
//! on sheets as long as another version's, as the longest, and a byte longer, and those
//! of length over depth (`hull_case`).

use crate::form::Form;
use crate::hull_case::{self, HullCase};
use crate::limits::{in_header, Allowed};
use crate::refusal::Refusal;
use crate::version::{Version, SHORTEST_HEADER, VERSIONS};
use std::collections::BTreeSet;

#[derive(Clone, Copy, Debug, PartialEq, Eq, PartialOrd, Ord)]
pub enum HeaderCase {
    /// So many bytes: enough to look at the version, too few for its header.
    Cut { version: i128, bytes: usize },
    /// No such version, with bytes for every header or with fewer.
    Unknown { version: i128, short: bool },
    /// This value in a field, by the field's number.
    Field {
        version: i128,
        field: usize,
        value: i128,
    },
    /// As long as if the records stood behind so many bytes, which is not where they do.
    Behind { version: i128, bytes: usize },
    /// As many records as there may be, and a byte past them or not.
    Full { version: i128, past: bool },
    /// Of its length over its depth.
    Hull { version: i128, hull: HullCase },
}

use HeaderCase::{Behind, Cut, Field, Full, Hull, Unknown};

/// Every case that must come up.
pub fn all() -> BTreeSet<HeaderCase> {
    let numbers = 0..16;
    let cases = numbers.flat_map(|number| match Version::numbered(number) {
        Some(version) => of_version(version),
        None => [false, true]
            .map(|short| Unknown {
                version: number,
                short,
            })
            .to_vec(),
    });
    cases.collect()
}

fn of_version(known: &Version) -> Vec<HeaderCase> {
    let version = known.number;
    let blank = Form::blank(known.layout);
    let mut cases = Vec::new();
    for bytes in SHORTEST_HEADER..known.bytes {
        cases.push(Cut { version, bytes });
    }
    for (index, (name, width)) in known.layout.iter().enumerate().skip(1) {
        let field = index + 1;
        for value in telling(&in_header(&blank, name), *width) {
            cases.push(Field {
                version,
                field,
                value,
            });
        }
    }
    let lengths = VERSIONS.iter().map(|other| other.bytes);
    for bytes in lengths.filter(|bytes| *bytes != known.bytes) {
        cases.push(Behind { version, bytes });
    }
    for past in [false, true] {
        cases.push(Full { version, past });
    }
    for hull in hull_case::all(known) {
        cases.push(Hull { version, hull });
    }
    cases
}

/// Values that show a field's limits: each end and the number past it, if the field's
/// bits can hold it; where only 0 may stand, each bit alone.
fn telling(allowed: &Allowed, width: u32) -> Vec<i128> {
    let mut values: Vec<i128> = match allowed {
        Allowed::Between(0, 0) => (0..width).map(|bit| 1 << bit).collect(),
        Allowed::Between(lowest, highest) => {
            vec![lowest - 1, *lowest, *highest, highest + 1]
        }
        Allowed::Among(values) => {
            let around = values.iter().map(|value| [value - 1, *value, value + 1]);
            around.flatten().collect()
        }
    };
    values.retain(|value| (0..1 << width).contains(value));
    values
}

/// Which cases a sheet is, by what it is turned away with, and perhaps others that
/// need not come up.
pub fn found(sheet: &[u8], refusal: Option<Refusal>) -> Vec<HeaderCase> {
    if sheet.len() < SHORTEST_HEADER {
        return Vec::new();
    }
    let version = i128::from(sheet[0] >> 4);
    let bytes = sheet.len();
    match refusal.map(|refusal| refusal.number) {
        Some(1) => vec![Cut { version, bytes }],
        Some(2) => {
            let short = VERSIONS.iter().any(|known| bytes < known.bytes);
            vec![Unknown { version, short }]
        }
        _ => found_in_header(sheet, refusal),
    }
}

/// The same for a header of a known version that is there whole.
fn found_in_header(sheet: &[u8], refusal: Option<Refusal>) -> Vec<HeaderCase> {
    let version = i128::from(sheet[0] >> 4);
    let known = Version::numbered(version).expect("a version that was not turned away");
    let header = Form::unpack(known.layout, sheet);
    let n = header.get("n");
    let at = |field| Field {
        version,
        field,
        value: header.values[field - 1],
    };
    let full = |past| Full { version, past };
    let mut cases: Vec<HeaderCase> = match refusal {
        None => {
            let fields = (1..=header.values.len()).map(at);
            let full = (n == known.n_highest).then_some(full(false));
            fields.chain(full).collect()
        }
        Some(Refusal { number: 3, place }) => vec![at(place)],
        Some(Refusal { number: 4, .. }) => {
            let a_byte_past = sheet.len() == known.sheet_bytes(n) + 1;
            let full = (n == known.n_highest && a_byte_past).then_some(full(true));
            let records = known.sheet_bytes(n) - known.bytes;
            let bytes = sheet.len().checked_sub(records);
            let behind = bytes.map(|bytes| Behind { version, bytes });
            full.into_iter().chain(behind).collect()
        }
        Some(_) => Vec::new(),
    };
    let hull = hull_case::found(known, &header, sheet, refusal);
    cases.extend(hull.map(|hull| Hull { version, hull }));
    cases
}
