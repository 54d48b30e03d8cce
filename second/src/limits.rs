//! Which values each field may have ("The sheet, bit by bit"), and which
//! field of a form is the first one at fault.

use crate::form::Form;
use crate::version::Version;

pub const T_HIGHEST: i128 = 4000;
pub const W_HIGHEST: i128 = 100_000;
pub const A_HIGHEST: i128 = 16_000;
pub const ID_HIGHEST: i128 = 1000;
pub const WAVE_HEIGHTS: [i128; 3] = [0, 60, 120];

#[derive(Clone, Debug, PartialEq, Eq)]
pub enum Allowed {
    /// Every whole number from the first to the second.
    Between(i128, i128),
    /// These and no others, in rising order.
    Among(&'static [i128]),
}

use Allowed::{Among, Between};

impl Allowed {
    pub fn has(&self, value: i128) -> bool {
        match self {
            Between(lowest, highest) => *lowest <= value && value <= *highest,
            Among(values) => values.contains(&value),
        }
    }

    pub fn lowest(&self) -> i128 {
        match self {
            Between(lowest, _) => *lowest,
            Among(values) => values[0],
        }
    }

    pub fn highest(&self) -> i128 {
        match self {
            Between(_, highest) => *highest,
            Among(values) => values[values.len() - 1],
        }
    }
}

/// Carries exactly this value.
fn only(value: i128) -> Allowed {
    Between(value, value)
}

/// For a header of any version; no range rests on another field.
pub fn in_header(header: &Form, name: &str) -> Allowed {
    let version = Version::of(header);
    match name {
        "version" => only(version.number),
        "L" => Between(4000, 13_500),
        "D0" => Between(1, 1000),
        "H" => Among(&WAVE_HEIGHTS),
        "runs" => Between(0, 1),
        "M" => Between(0, 1_000_000),
        "ZB" | "ZDB" => Between(1, 100_000_000),
        "n" => Between(0, version.n_highest),
        "depth" => Between(100, 1000),
        "zero" | "last_zero" => only(0),
        _ => panic!("no header field {name}"),
    }
}

/// For a plate of kind 1 to 4; some ranges rest on the kind, on ballast and on z.
pub fn in_plate(plate: &Form, name: &str) -> Allowed {
    let kind = plate.get("kind");
    let transverse = kind == 1 || kind == 3;
    let bottom = kind == 1 || kind == 2;
    match name {
        "kind" => Between(1, 4),
        "id" => Between(1, ID_HIGHEST),
        "K" => Between(500, 1000),
        "z" => Between(0, 1000),
        "S" => Between(100, 2000),
        "T" => Between(1, T_HIGHEST),
        "b1" | "b2" if transverse => Between(10, 1000),
        "b1" | "b2" => only(0),
        "ballast" => Between(0, 1),
        "zL" if plate.get("ballast") == 1 => Between(plate.get("z"), 1200),
        "zL" => only(0),
        "cargo" if bottom => only(0),
        "cargo" => Between(0, 200_000),
        "zero" => only(0),
        _ => panic!("no plate field {name}"),
    }
}

/// For a member of kind 5 to 8; some ranges rest on the kind.
pub fn in_member(member: &Form, name: &str) -> Allowed {
    let kind = member.get("kind");
    let floor_or_transverse = kind == 6 || kind == 7;
    match name {
        "kind" => Between(5, 8),
        "id" => Between(1, ID_HIGHEST),
        "z" if kind == 5 => Between(0, 1000),
        "z" => only(0),
        "S" => Between(100, 4000),
        "l" => Between(10, 1000),
        "T" => Between(1, T_HIGHEST),
        "beta_b" | "beta_s" => Between(1, 100),
        "eta" if floor_or_transverse => only(100),
        "eta" => Between(1, 100),
        "sigma1" if floor_or_transverse => only(0),
        "sigma1" => Between(0, 255),
        "W" => Between(1, W_HIGHEST),
        "A" => Between(1, A_HIGHEST),
        "K" => Between(500, 1000),
        _ => panic!("no member field {name}"),
    }
}

/// For a record whose kind is one of the eight.
pub fn in_record(record: &Form, name: &str) -> Allowed {
    if record.get("kind") <= 4 {
        in_plate(record, name)
    } else {
        in_member(record, name)
    }
}

/// The number (from 1) of the first field of a form whose value is not allowed.
pub fn first_fault(form: &Form, allowed: impl Fn(&str) -> Allowed) -> Option<usize> {
    let fields = form.layout.iter().zip(&form.values);
    let mut faulty = fields.map(|(field, value)| !allowed(field.0).has(*value));
    faulty.position(|fault| fault).map(|index| index + 1)
}
