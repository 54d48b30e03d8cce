//! Rule 3 worked out: R, K2, the form, and the right side by itself.

use super::blanks::{filled, written};
use super::plates::framing;
use super::words::{plates as w, steps};
use super::working::{Right, Square, Working};
use crate::limits::T_HIGHEST;
use crate::loads::{hull_stress_exactly, panel_factor, panel_factor_exactly};
use crate::quotient::Quotient;
use crate::rules::{fork, has_second_form};
use crate::sheet::{Header, Own, Plate};

pub fn working(header: &Header, plate: &Plate) -> Working {
    let Plate { kind, K, .. } = *plate;
    let R = hull_stress_exactly(header, kind).up();
    let first = printed(header, plate) + &stress(header, plate) + &panel(plate);
    let second = has_second_form(kind, K, R);
    let (text, right) = if second {
        second_form(plate, R)
    } else {
        first_form(plate, R)
    };
    let text = first + &forked(plate, R, second) + &text;
    Working { text, right }
}

fn has_ZDB(header: &Header) -> bool {
    matches!(header.own, Own::Version2 { .. })
}

/// The rule as printed, and how it is taken on the inner bottom.
fn printed(header: &Header, plate: &Plate) -> String {
    let [first, second] = w::T3_BOTTOM[framing(plate)];
    let inner = w::T3_INNER[framing(plate)];
    match plate.kind {
        1 | 2 => written(&[(first, &[]), (second, &[])]),
        _ if has_ZDB(header) => written(&[(inner, &[]), (w::INNER, &[])]),
        _ => written(&[(inner, &[]), (w::INNER, &[]), (w::NO_ZDB, &[])]),
    }
}

/// R.
fn stress(header: &Header, plate: &Plate) -> String {
    let ([with, divided], modulus) = match header.own {
        Own::Version2 { ZDB, .. } if plate.kind > 2 => (w::R[1], ZDB),
        _ => (w::R[0], header.ZB),
    };
    let R = hull_stress_exactly(header, plate.kind);
    written(&[
        (with, &[header.M, modulus]),
        (divided, &[R.whole, R.remainder, R.up()]),
    ])
}

/// K2 of a transversely framed plate.
fn panel(plate: &Plate) -> String {
    if framing(plate) != 0 {
        return String::new();
    }
    let Quotient { whole, remainder } = panel_factor_exactly(plate);
    let K2 = panel_factor(plate);
    let sides = filled(w::PANEL, 0, &[plate.b1, plate.b2]);
    sides
        + &if whole > K2 {
            filled(w::K2_CAPPED, 0, &[whole, remainder])
        } else {
            filled(w::K2, 0, &[whole, remainder, K2])
        }
}

/// Which form the bottom takes.
fn forked(plate: &Plate, R: i128, second: bool) -> String {
    let Plate { kind, K, .. } = *plate;
    let says = w::FORK[framing(plate)][usize::from(second)];
    match fork(kind, K, R) {
        Some((product, _)) => filled(says, 0, &[product, K]),
        None => String::new(),
    }
}

/// The right side of T² divided, its root, and what it comes to.
fn squared(divided: &str, right: Quotient) -> (String, Right) {
    let square = Square::of_T(right.up());
    let text = written(&[
        (divided, &[right.whole, right.remainder]),
        (steps::T_ROOT, &[square.n, square.root()]),
    ]);
    (text, Right::Square(square))
}

/// T² times the first is at least R times the second.
fn first_form(plate: &Plate, R: i128) -> (String, Right) {
    let S = plate.S;
    let [here, divided, at_the_last] = w::FIRST_FORM[framing(plate)];
    let (left, per_R, asked) = match framing(plate) {
        0 => {
            let K2 = panel_factor(plate);
            let asked = filled(here, 0, &[S, K2, R]);
            (25 * K2 * K2, 1156 * S * S, asked)
        }
        _ => (100_000_000, 1521 * S * S, filled(here, 0, &[S, R])),
    };
    let most = Quotient::of(left * T_HIGHEST * T_HIGHEST, per_R);
    let (text, right) = if R > most.whole {
        let past = [
            (at_the_last, &[most.whole, most.remainder][..]),
            (w::R_PAST_THE_GAUGE, &[R]),
        ];
        (written(&past), Right::Nothing)
    } else {
        squared(divided, Quotient::of(per_R * R, left))
    };
    (asked + &text, right)
}

/// From this R on the second form leaves no T.
const NO_T_FROM: i128 = 210_000;

fn second_form(plate: &Plate, R: i128) -> (String, Right) {
    let Plate { K, S, .. } = *plate;
    let [here, divided] = w::SECOND_FORM[framing(plate)];
    let (left, right, asked) = match framing(plate) {
        0 => {
            let K2 = panel_factor(plate);
            let asked = filled(here, 0, &[S, K, K2, R]);
            (K2 * K2, 504_100_000 * S * S * K, asked)
        }
        _ => (10, 1681 * S * S * K, filled(here, 0, &[S, K, R])),
    };
    let (text, right) = if R < NO_T_FROM {
        squared(divided, Quotient::of(right, left * (NO_T_FROM - R)))
    } else {
        (filled(w::R_TOO_HIGH, 0, &[R]), Right::Nothing)
    };
    (asked + &text, right)
}
