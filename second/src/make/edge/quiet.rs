//! Vessels, plates and members that meet every rule with room, to be changed in
//! the one that is tried.

use crate::form::{Form, MEMBER, PLATE};
use crate::limits::{A_HIGHEST, T_HIGHEST, W_HIGHEST};
use crate::version::VERSIONS;

/// A vessel without moment and without pressure at z = 1, in the first version.
pub fn quiet_header() -> Form {
    let version = &VERSIONS[0];
    let fields = [
        ("version", version.number),
        ("L", 4000),
        ("D0", 1),
        ("ZB", 1),
        ("n", 1),
    ];
    Form::filled(version.layout, &fields)
}

/// A plate at z = 1 without load.
pub fn quiet_plate(kind: i128, K: i128, S: i128, T: i128) -> Form {
    let fields = [
        ("kind", kind),
        ("id", 1),
        ("z", 1),
        ("K", K),
        ("S", S),
        ("T", T),
    ];
    let mut plate = Form::filled(PLATE, &fields);
    if kind == 1 || kind == 3 {
        plate.set("b1", 10);
        plate.set("b2", 10);
    }
    plate
}

/// A member with the least load and the greatest T, W and A.
pub fn quiet_member(kind: i128) -> Form {
    let fields = [
        ("kind", kind),
        ("id", 1),
        ("z", if kind == 5 { 1 } else { 0 }),
        ("S", 100),
        ("l", 10),
        ("T", T_HIGHEST),
        ("beta_b", 1),
        ("beta_s", 1),
        ("eta", 100),
        ("W", W_HIGHEST),
        ("A", A_HIGHEST),
        ("K", 1000),
    ];
    Form::filled(MEMBER, &fields)
}
