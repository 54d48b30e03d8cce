//! Edges of the loads: records whose answer would be another one with a
//! thousandth of a pascal less (those that miss) or more (those that meet). Plates
//! show it in rule 2, members through q in rule 5.

use super::quiet::{quiet_header, quiet_member, quiet_plate};
use super::side::Side::{self, Meets, Misses};
use crate::form::Form;
use crate::limits::{T_HIGHEST, WAVE_HEIGHTS, W_HIGHEST};
use crate::loads::{line_load, member_pressure, plate_pressure};
use crate::make::chance::Chance;
use crate::sheet::{Header, Record};

/// Where a pressure comes from, with the wave height.
#[derive(Clone, Copy, PartialEq, Eq)]
pub enum Load {
    Below(i128),
    Above(i128),
    Ballast(i128),
    /// Where the waves leave nothing of the relief pM.
    BallastUnrelieved(i128),
    Runs(i128, i128),
}

/// Every load with the kinds that can show it. On plates the sea above the
/// draught never shows (rule 1 asks for more), and at H = 0 it is 3,250,000:
/// no spacing takes q just past a whole number there.
pub fn aims(side: Side) -> Vec<(Load, &'static [i128])> {
    let mut aims: Vec<(Load, &[i128])> = Vec::new();
    for H in WAVE_HEIGHTS {
        aims.push((Load::Below(H), &[1, 2, 5]));
        if H > 0 || side == Meets {
            aims.push((Load::Above(H), &[5]));
        }
        aims.push((Load::Ballast(H), &[1, 2, 3, 4]));
        if H > 0 {
            aims.push((Load::BallastUnrelieved(H), &[1, 2]));
        }
        aims.push((Load::Runs(0, H), &[6, 7, 8]));
        aims.push((Load::Runs(1, H), &[6, 7, 8]));
    }
    aims
}

/// One draw: a header and a record, if it was at the edge.
pub fn draw(chance: &mut Chance, load: Load, kind: i128, side: Side) -> Option<(Form, Form)> {
    let mut header = quiet_header();
    let deepest = match load {
        // 50031 / 14715 = 3.4.
        Load::BallastUnrelieved(H) => 34 * H / 10,
        _ => 1000,
    };
    let D0 = chance.between(1, deepest);
    header.set("D0", D0);
    let (H, z) = match load {
        Load::Below(H) => (H, chance.between(0, D0)),
        Load::Above(H) => (H, chance.between(D0.min(999) + 1, 1000)),
        Load::Ballast(H) | Load::BallastUnrelieved(H) => (H, chance.between(0, 1000)),
        Load::Runs(runs, H) => {
            header.set("runs", runs);
            (H, 0)
        }
    };
    header.set("H", H);
    let record = if kind <= 4 {
        plate(chance, &header, kind, z, load, side)
    } else {
        member(chance, &header, kind, z, side)
    };
    Some((header, record?))
}

/// The pressure that would be answered otherwise.
fn beside(P: i128, side: Side) -> i128 {
    match side {
        Misses => P - 1,
        Meets => P + 1,
    }
}

fn plate(
    chance: &mut Chance,
    header: &Form,
    kind: i128,
    z: i128,
    load: Load,
    side: Side,
) -> Option<Form> {
    let mut plate = quiet_plate(kind, 1000, 1000, 1);
    plate.set("z", z);
    if matches!(load, Load::Ballast(_) | Load::BallastUnrelieved(_)) {
        plate.set("ballast", 1);
        plate.set("zL", chance.between(z, 1200));
    }
    let Record::Plate(data) = Record::of(&plate) else {
        return None;
    };
    let P = plate_pressure(&Header::of(header), &data).P;
    let (a, b) = if kind == 1 || kind == 3 {
        (39_062_500_000, 1)
    } else {
        (625_000_000_000, 9)
    };
    for _ in 0..STEELS_AND_SPACINGS {
        let (K, S) = (chance.between(500, 1000), chance.between(500, 2000));
        let right = b * S * S * K;
        // The greatest T that misses, or the one above it.
        let greatest = ((right * P - 1).max(0) / a).isqrt();
        let T = greatest + if side == Meets { 1 } else { 0 };
        let met = |P| a * T * T >= right * P;
        if met(P) != met(beside(P, side)) && (1..=T_HIGHEST).contains(&T) {
            for (name, value) in [("K", K), ("S", S), ("T", T)] {
                plate.set(name, value);
            }
            return Some(plate);
        }
    }
    None
}

/// So many are drawn for one pressure; about one in 50,000 is at the edge.
const STEELS_AND_SPACINGS: usize = 50_000;

fn member(chance: &mut Chance, header: &Form, kind: i128, z: i128, side: Side) -> Option<Form> {
    let mut member = quiet_member(kind);
    let S = chance.between(100, 4000);
    member.fill(&[("S", S), ("z", z)]);
    let Record::Member(data) = Record::of(&member) else {
        return None;
    };
    let P = member_pressure(&Header::of(header), &data).P;
    let (q, q_beside) = (line_load(P, S), line_load(beside(P, side), S));
    if q == q_beside {
        return None;
    }
    let l = chance.between(10, 1000);
    let beta_b = chance.between(1, 100);
    let (mut eta, mut sigma1) = (100, 0);
    if kind == 5 || kind == 8 {
        eta = chance.between(1, 100);
        sigma1 = chance.between(0, 190);
    }
    let (left, right) = match kind {
        5 => (100_000_000_000 * (214 - sigma1), 833 * beta_b * eta * l * l),
        8 => (2_000_000_000 * (197 - sigma1), 25 * beta_b * eta * l * l),
        _ => (5_000_000_000, 29 * beta_b * l * l),
    };
    let greatest = (right * q - 1).max(0) / left;
    let W = greatest + if side == Meets { 1 } else { 0 };
    let met = |q| left * W >= right * q;
    if met(q) == met(q_beside) || !(1..=W_HIGHEST).contains(&W) {
        return None;
    }
    member.fill(&[
        ("W", W),
        ("l", l),
        ("beta_b", beta_b),
        ("eta", eta),
        ("sigma1", sigma1),
    ]);
    Some(member)
}
