//! Rules 4 to 6 worked out: the right side by itself, divided and rounded up.

use super::blanks::{filled, written, Line};
use super::words::{members as w, steps};
use super::working::{Right, Square, Working};
use crate::loads::{line_load_exactly, member_pressure};
use crate::quotient::Quotient;
use crate::sheet::{Header, Member};

pub fn workings(header: &Header, member: &Member) -> [Working; 3] {
    let P = member_pressure(header, member).P;
    let q = line_load_exactly(P, member.S).up();
    [web(header, member), modulus(member, P), shear(member, q)]
}

fn web(header: &Header, member: &Member) -> Working {
    match member.kind {
        5 if header.L < 12_000 => web_of_short(header, member),
        5 => web_of_long(header, member),
        _ => web_of_floor(header, member),
    }
}

/// The lines of rule 4 from the root on, and what they come to; what is given between the
/// root and the sum stands in the line with both.
fn by_root(words: &str, square: Square, between: &[i128], first: &[Line]) -> Working {
    let sum = square.sum();
    let last = [&[square.root()], between, &[sum.whole, sum.remainder]].concat();
    let last: [Line; 2] = [(words, &last), (steps::T_ROUNDED, &[sum.up()])];
    let text = written(first) + &written(&last);
    let right = Right::Square(square);
    Working { text, right }
}

fn web_of_short(header: &Header, member: &Member) -> Working {
    let L = header.L;
    let Member { K, S, .. } = *member;
    let right = Quotient::of(L * L * K, 6250);
    let (n, step, spacing) = (right.up(), 100, 45 * S);
    let short = 16_300 + spacing;
    let square = Square { n, step, short };
    let [rule, here, with, divided, sum] = w::WEB[0];
    let first: [Line; 5] = [
        (rule, &[]),
        (here, &[]),
        (with, &[L, K, S]),
        (divided, &[right.whole, right.remainder]),
        (steps::X_ROOT, &[n, square.root()]),
    ];
    by_root(sum, square, &[spacing], &first)
}

fn web_of_long(header: &Header, member: &Member) -> Working {
    let Member { K, S, .. } = *member;
    let (n, step, short) = (15_210 * K, 10, S);
    let square = Square { n, step, short };
    let [rule, here, with, right, sum] = w::WEB[1];
    let first: [Line; 4] = [
        (rule, &[]),
        (here, &[]),
        (with, &[header.L, K, S]),
        (right, &[n, square.root()]),
    ];
    by_root(sum, square, &[], &first)
}

fn web_of_floor(header: &Header, member: &Member) -> Working {
    let (L, K) = (header.L, member.K);
    let right = Quotient::of(8 * L * L * K, 3125);
    let (n, step, short) = (right.up(), 100, 38_000);
    let square = Square { n, step, short };
    let [rule, here, with, divided, sum] = w::WEB[2];
    let first: [Line; 5] = [
        (rule, &[]),
        (here, &[]),
        (with, &[L, K]),
        (divided, &[right.whole, right.remainder]),
        (steps::X_ROOT, &[n, square.root()]),
    ];
    by_root(sum, square, &[], &first)
}

/// The place of a kind among three: longitudinals, floors and transverses, girders.
fn sort(member: &Member) -> usize {
    match member.kind {
        5 => 0,
        8 => 2,
        _ => 1,
    }
}

/// The right side of rule 5; none where the hull girder leaves no stress.
fn modulus_right(member: &Member, q: i128) -> Option<Quotient> {
    let bending = member.beta_b * q * member.l * member.l;
    let (left, right, most) = match sort(member) {
        0 => (100_000_000_000, 833 * member.eta, 214),
        1 => return Some(Quotient::of(29 * bending, 5_000_000_000)),
        _ => (2_000_000_000, 25 * member.eta, 197),
    };
    let stress_left = most - member.sigma1;
    (stress_left > 0).then(|| Quotient::of(right * bending, left * stress_left))
}

fn modulus(member: &Member, P: i128) -> Working {
    let S = member.S;
    let (l, beta_b, eta, sigma1) = (member.l, member.beta_b, member.eta, member.sigma1);
    let q = line_load_exactly(P, S);
    let [rule, here, divided] = w::MODULUS[sort(member)];
    let with: &[i128] = match sort(member) {
        1 => &[beta_b, l],
        _ => &[beta_b, eta, l, sigma1],
    };
    let text = written(&[
        (rule, &[]),
        (w::PRESSURE_SPACING, &[P, S]),
        (w::LINE_LOAD, &[q.whole, q.remainder, q.up()]),
        (here, with),
    ]);
    let (last, right) = match modulus_right(member, q.up()) {
        Some(right) => plain(divided, w::W_ROUNDED, right),
        None => {
            let no_W = w::NO_STRESS_LEFT[sort(member) / 2];
            (filled(no_W, 0, &[sigma1]), Right::Nothing)
        }
    };
    let text = text + &last;
    Working { text, right }
}

/// A scantling's right side, divided and rounded up.
fn plain(divided: &str, rounded: &str, right: Quotient) -> (String, Right) {
    let text = written(&[
        (divided, &[right.whole, right.remainder]),
        (rounded, &[right.up()]),
    ]);
    (text, Right::Plain(right.up()))
}

fn shear(member: &Member, q: i128) -> Working {
    let Member { l, beta_s, eta, .. } = *member;
    let shearing = beta_s * q * l;
    let quotient = match sort(member) {
        0 => Quotient::of(9 * eta * shearing, 2_000_000_000),
        1 => Quotient::of(9 * shearing, 20_000_000),
        _ => Quotient::of(7 * shearing, 12_500_000),
    };
    let [rule, here, divided] = w::SHEAR[sort(member)];
    let with: &[i128] = match sort(member) {
        0 => &[beta_s, eta, q, l],
        _ => &[beta_s, q, l],
    };
    let (last, right) = plain(divided, w::A_ROUNDED, quotient);
    let text = written(&[(rule, &[]), (here, with)]) + &last;
    Working { text, right }
}
