//! Rules 1 and 2 worked out: the right side by itself, divided and rounded up.

use super::blanks::written;
use super::stress;
use super::words::{plates as w, steps};
use super::working::{Right, Square, Working};
use crate::loads::plate_pressure;
use crate::quotient::Quotient;
use crate::sheet::{Header, Plate};

pub fn workings(header: &Header, plate: &Plate) -> [Working; 3] {
    [
        least_thickness(header, plate),
        under_pressure(header, plate),
        stress::working(header, plate),
    ]
}

/// The place of transverse framing, or of longitudinal framing, in a pair.
pub fn framing(plate: &Plate) -> usize {
    match plate.kind {
        1 | 3 => 0,
        _ => 1,
    }
}

fn least_thickness(header: &Header, plate: &Plate) -> Working {
    let L = header.L;
    let Plate { kind, K, S, .. } = *plate;
    let ([rule, here, divided, by_root], c) = match kind {
        1 => (w::T1[0], 18_500),
        2 => (w::T1[1], 11_000),
        _ => (w::T1[2], 15_000),
    };
    let right = if kind <= 2 {
        Quotient::of(9 * L * L * K, 1000)
    } else {
        Quotient::of(8 * L * L * K, 3125)
    };
    let (n, step, spacing) = (right.up(), 100, 36 * S);
    let short = c + spacing;
    let square = Square { n, step, short };
    let (root, sum) = (square.root(), square.sum());
    let text = written(&[
        (rule, &[]),
        (here, &[]),
        (w::LENGTH_STEEL_SPACING, &[L, K, S]),
        (divided, &[right.whole, right.remainder]),
        (steps::X_ROOT, &[n, root]),
        (by_root, &[root, spacing, sum.whole, sum.remainder]),
        (steps::T_ROUNDED, &[sum.up()]),
    ]);
    let right = Right::Square(square);
    Working { text, right }
}

fn under_pressure(header: &Header, plate: &Plate) -> Working {
    let Plate { K, S, .. } = *plate;
    let P = plate_pressure(header, plate).P;
    let right = match framing(plate) {
        0 => Quotient::of(S * S * K * P, 39_062_500_000),
        _ => Quotient::of(9 * S * S * K * P, 625_000_000_000),
    };
    let square = Square::of_T(right.up());
    let [rule, here, divided] = w::T2[framing(plate)];
    let text = written(&[
        (rule, &[]),
        (here, &[]),
        (w::SPACING_STEEL_PRESSURE, &[S, K, P]),
        (divided, &[right.whole, right.remainder]),
        (steps::T_ROOT, &[square.n, square.root()]),
    ]);
    let right = Right::Square(square);
    Working { text, right }
}
