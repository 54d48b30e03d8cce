//! Edges of the rules' factors: for each inequality and kind, records that miss
//! it by so little that one more in its left factor, or one less in its right
//! one, would let them pass, and records that meet it by so little that one less
//! on the left, or one more on the right, would turn them away.
//!
//! Fields are drawn, the load (P, R or q) at which the rule turns is worked out,
//! and the draw counts if that is near enough and the load can be had.

use super::quiet::{quiet_header, quiet_member, quiet_plate};
use super::side::at_edge;
use super::side::Side::{self, Meets, Misses};
use crate::form::Form;
use crate::limits::{A_HIGHEST, T_HIGHEST, WAVE_HEIGHTS, W_HIGHEST};
use crate::loads::{hull_stress, line_load, member_pressure, panel_factor, plate_pressure};
use crate::make::chance::Chance;
use crate::make::record::panel;
use crate::make::vessel::aimed_at;
use crate::sheet::{Header, Record};

/// The rules' inequalities; rules 3 and 4 have two, and rule 3 turns at the cap of K2.
#[derive(Clone, Copy)]
pub enum Inequality {
    T1,
    T2,
    T3,
    T3AtCap,
    T3SecondForm,
    Web,
    LongWeb,
    Modulus,
    Shear,
}

use Inequality::{LongWeb, Modulus, Shear, T3AtCap, T3SecondForm, Web, T1, T2, T3};

impl Inequality {
    pub fn number(self) -> i128 {
        match self {
            T1 => 1,
            T2 => 2,
            T3 | T3AtCap | T3SecondForm => 3,
            Web | LongWeb => 4,
            Modulus => 5,
            Shear => 6,
        }
    }
}

/// The inner bottom is aimed at twice in rule 3, which goes by another modulus there.
pub const AIMS: &[(Inequality, &[i128])] = &[
    (T1, &[1, 2, 3, 4]),
    (T2, &[1, 2, 3, 4]),
    (T3, &[1, 2, 3, 4, 4, 3]),
    (T3AtCap, &[3]),
    (T3SecondForm, &[1, 2]),
    (Web, &[5, 6, 7, 8]),
    (LongWeb, &[5]),
    (Modulus, &[5, 6, 7, 8]),
    (Shear, &[5, 6, 7, 8]),
];

/// A header and a record, if the draw was at the edge.
type Drawn = Option<(Form, Form)>;

/// One draw.
pub fn draw(chance: &mut Chance, inequality: Inequality, kind: i128, side: Side) -> Drawn {
    match inequality {
        T1 => least_thickness(chance, kind, side),
        T2 => under_pressure(chance, kind, side),
        T3 => under_stress(chance, kind, side),
        T3AtCap => under_stress_at_cap(chance, kind, side),
        T3SecondForm => under_stress_second_form(chance, kind, side),
        Web => web(chance, kind, side),
        LongWeb => web_of_long_vessel(chance, side),
        Modulus => modulus(chance, kind, side),
        Shear => shear(chance, kind, side),
    }
}

/// Rules 1 and 4 with X: also the next X would turn the answer.
fn root_at_edge(a: i128, X: i128, b: i128, y: i128, side: Side) -> bool {
    let step = if side == Misses { 1 } else { -1 };
    let beside = X + step;
    let turns = (a * X * X >= b * y) != (a * beside * beside >= b * y);
    X > 0 && turns && at_edge(a, X * X, b, y, side)
}

fn least_thickness(chance: &mut Chance, kind: i128, side: Side) -> Drawn {
    let (L, K) = (chance.between(4000, 13_500), chance.between(500, 1000));
    let (S, T) = (chance.between(100, 2000), chance.between(200, 1400));
    let c = [18_500, 11_000, 15_000, 15_000][kind as usize - 1];
    let (a, b) = if kind <= 2 { (1000, 9) } else { (3125, 8) };
    let X = 100 * T - c - 36 * S;
    if !root_at_edge(a, X, b, L * L * K, side) {
        return None;
    }
    let mut header = quiet_header();
    header.set("L", L);
    Some((header, quiet_plate(kind, K, S, T)))
}

/// Ballast less relief is a multiple of the first (98100 = 20 x 4905, 14715 = 3 x
/// 4905, 50031 x 60 = 612 x 4905) and at most the second; so is cargo below.
const BOTTOM_PRESSURES: (i128, i128) = (4905, 98_100 * 1300);
const CARGO_PRESSURES: (i128, i128) = (1000, 200_000_000);

/// Rule 2. Near misses are so rare that all T for a spacing and a steel are gone
/// through, in 64 bits: the greatest product here is 625 x 10^9 x 4000^2 = 10^19.
fn under_pressure(chance: &mut Chance, kind: i128, side: Side) -> Drawn {
    let (a, b) = if kind == 1 || kind == 3 {
        (39_062_500_000, 1)
    } else {
        (625_000_000_000, 9)
    };
    let (step, most) = if kind <= 2 {
        BOTTOM_PRESSURES
    } else {
        CARGO_PRESSURES
    };
    let (K, S) = (chance.between(500, 1000), chance.between(500, 2000));
    let right = (b * S * S * K) as u64;
    let (left, step, most) = (a as u64, step as u64, most as u64);
    let thickest = (2 * S).min(T_HIGHEST) as u64;
    let mut within = (S as u64..=thickest).take_while(|T| left * T * T <= right * most);
    let T = within.find(|T| {
        let over = left * T * T % (right * step);
        match side {
            Misses => right * step - over <= T * T,
            Meets => over < T * T,
        }
    })?;
    // P in steps: the last that is met, or the first that is missed.
    let steps = left * T * T / (right * step) + if side == Misses { 1 } else { 0 };
    let (P, T) = (i128::from(step * steps), i128::from(T));
    if !at_edge(a, T * T, b, S * S * K * P, side) {
        return None;
    }
    let mut header = quiet_header();
    let mut plate = quiet_plate(kind, K, S, T);
    press(chance, &mut header, &mut plate, P).then_some((header, plate))
}

/// Brings the pressure on a plate to P, if there is a way: by cargo on the
/// inner bottom, by ballast less relief on the bottom.
fn press(chance: &mut Chance, header: &mut Form, plate: &mut Form, P: i128) -> bool {
    if plate.get("kind") >= 3 {
        plate.set("cargo", P / 1000);
        return P % 1000 == 0 && P / 1000 <= 200_000;
    }
    plate.set("ballast", 1);
    let first = chance.between(1, 1000);
    for D0 in (first..=1000).chain(1..first) {
        for H in WAVE_HEIGHTS {
            header.set("D0", D0);
            header.set("H", H);
            let head = (P + (14_715 * D0 - 50_031 * H).max(0)) / 98_100 - 100;
            if !(0..=1200).contains(&head) {
                continue;
            }
            // As high up as can be, where the sea presses least.
            let z = (1200 - head).min(1000);
            plate.set("z", z);
            plate.set("zL", z + head);
            let Record::Plate(data) = Record::of(plate) else {
                return false;
            };
            if plate_pressure(&Header::of(header), &data).P == P {
                return true;
            }
        }
    }
    false
}

/// Brings R to the number: as it is, rounded up, or rounded up as far as can be.
fn stress(chance: &mut Chance, header: &mut Form, kind: i128, R: i128) -> bool {
    if !(1..=210_000).contains(&R) {
        return false;
    }
    let rounded = aimed_at(chance, R);
    let either = *chance.of(&[(R, 1_000_000), rounded]);
    let (M, ZB) = rounded_furthest(R).unwrap_or(either);
    header.set("M", M);
    header.set("ZB", ZB);
    hull_stress(&Header::of(header), kind) == R
}

/// A moment and a modulus with 1,000,000 M one above a multiple of ZB, so that R is
/// rounded up from just above R - 1. It takes an inverse of R - 1 modulo 1,000,000:
/// its 49,999th power, where R - 1 is prime to 10.
fn rounded_furthest(R: i128) -> Option<(i128, i128)> {
    let below = R - 1;
    if below % 2 == 0 || below % 5 == 0 {
        return None;
    }
    let inverse = (0..49_999).fold(1, |power, _| power * below % 1_000_000);
    let ZB = 1_000_000 - inverse;
    Some(((below * ZB + 1) / 1_000_000, ZB))
}

/// Rule 3 as it stands for all four kinds.
fn under_stress(chance: &mut Chance, kind: i128, side: Side) -> Drawn {
    let (K, S) = (chance.between(500, 1000), chance.between(100, 2000));
    let T = chance.between(400, T_HIGHEST);
    let mut plate = quiet_plate(kind, K, S, T);
    let (a, b, x) = if kind == 1 || kind == 3 {
        let K2 = some_panel(chance, &mut plate);
        (25, 1156, T * T * K2 * K2)
    } else {
        (100_000_000, 1521, T * T)
    };
    let R = a * x / (b * S * S) + if side == Misses { 1 } else { 0 };
    // The second form of the bottom must not come in.
    let turn = [121_000_000_000 / 1156, 625_000_000_000 / 6084];
    if kind <= 2 && K * R > turn[kind as usize - 1] {
        return None;
    }
    if !at_edge(a, x, b, S * S * R, side) {
        return None;
    }
    let mut header = quiet_header();
    stress(chance, &mut header, kind, R).then_some((header, plate))
}

fn some_panel(chance: &mut Chance, plate: &mut Form) -> i128 {
    let (b1, b2) = panel(chance);
    plate.set("b1", b1);
    plate.set("b2", b2);
    match Record::of(plate) {
        Record::Plate(data) => panel_factor(&data),
        Record::Member(_) => panic!("a plate"),
    }
}

/// Rule 3 with K2 at its cap, where one more or one less in that would turn it. Only the
/// inner bottom shows it: with so great an R as it takes, no T will do for the bottom.
fn under_stress_at_cap(chance: &mut Chance, kind: i128, side: Side) -> Drawn {
    let (K, S) = (chance.between(500, 1000), chance.between(100, 2000));
    let T = chance.between(400, T_HIGHEST);
    let b1 = chance.between(10, 199);
    let mut plate = quiet_plate(kind, K, S, T);
    plate.fill(&[("b1", b1), ("b2", 5 * b1 + 1)]);
    let wanted = 25 * T * T * 26_000 * 26_000 / (1156 * S * S);
    let M = chance.between(500_000, 1_000_000);
    let mut header = quiet_header();
    header.fill(&[("M", M), ("ZB", (1_000_000 * M / wanted).max(1))]);
    let R = hull_stress(&Header::of(&header), kind);
    let met_with = |K2: i128| 25 * T * T * K2 * K2 >= 1156 * S * S * R;
    let at_edge = match side {
        Misses => !met_with(26_000) && met_with(26_001),
        Meets => met_with(26_000) && !met_with(25_999),
    };
    at_edge.then_some((header, plate))
}

/// Rule 3's second form, on the bottom: what stress is left stands on the left.
fn under_stress_second_form(chance: &mut Chance, kind: i128, side: Side) -> Drawn {
    let (K, S) = (chance.between(500, 1000), chance.between(100, 2000));
    let T = chance.between(400, T_HIGHEST);
    let mut plate = quiet_plate(kind, K, S, T);
    let (a, b, x_per_left, turn) = if kind == 1 {
        let K2 = some_panel(chance, &mut plate);
        (1, 504_100_000, T * T * K2 * K2, 121_000_000_000 / 1156)
    } else {
        (10, 1681, T * T, 625_000_000_000 / 6084)
    };
    let y = S * S * K;
    let left = (b * y - 1) / (a * x_per_left) + if side == Meets { 1 } else { 0 };
    let R = 210_000 - left;
    if K * R <= turn || !at_edge(a, x_per_left * left, b, y, side) {
        return None;
    }
    let mut header = quiet_header();
    stress(chance, &mut header, kind, R).then_some((header, plate))
}

/// Rule 4, kind 5 under L = 12000 and the other kinds at every L.
fn web(chance: &mut Chance, kind: i128, side: Side) -> Drawn {
    let K = chance.between(500, 1000);
    let S = chance.between(100, 4000);
    let (L, X, a, b, T);
    if kind == 5 {
        (L, T) = (chance.between(4000, 11_999), chance.between(200, 2100));
        (X, a, b) = (100 * T - 16_300 - 45 * S, 6250, 1);
    } else {
        (L, T) = (chance.between(4000, 13_500), chance.between(380, 700));
        (X, a, b) = (100 * T - 38_000, 3125, 8);
    }
    if !root_at_edge(a, X, b, L * L * K, side) {
        return None;
    }
    let mut header = quiet_header();
    header.set("L", L);
    let mut member = quiet_member(kind);
    for (name, value) in [("K", K), ("S", S), ("T", T)] {
        member.set(name, value);
    }
    Some((header, member))
}

/// Rule 4, kind 5 from L = 12000 on.
fn web_of_long_vessel(chance: &mut Chance, side: Side) -> Drawn {
    let (K, S) = (chance.between(500, 1000), chance.between(100, 4000));
    let T = chance.between(280, 800);
    if !root_at_edge(1, 10 * T - S, 15_210, K, side) {
        return None;
    }
    let mut header = quiet_header();
    header.set("L", chance.between(12_000, 13_500));
    let mut member = quiet_member(5);
    for (name, value) in [("K", K), ("S", S), ("T", T)] {
        member.set(name, value);
    }
    Some((header, member))
}

/// The line load at which a x >= b q y_per_q turns, if this is an edge.
fn line_load_at_edge(a: i128, x: i128, b: i128, y_per_q: i128, side: Side) -> Option<i128> {
    let q = a * x / (b * y_per_q) + if side == Misses { 1 } else { 0 };
    (q <= MOST_Q && at_edge(a, x, b, y_per_q * q, side)).then_some(q)
}

/// No vessel has more: D0 1000, H 120, S 4000.
const MOST_Q: i128 = 416_415;

/// Brings the line load on a member to q, if there is a way.
fn load(chance: &mut Chance, header: &mut Form, member: &mut Form, q: i128) -> bool {
    let (H, runs) = (*chance.of(&WAVE_HEIGHTS), chance.between(0, 1));
    header.set("H", H);
    header.set("runs", runs);
    let first = chance.between(1, 1000);
    for D0 in (first..=1000).chain(1..first) {
        header.set("D0", D0);
        if member.get("kind") == 5 {
            member.set("z", chance.between(0, D0 / 8));
        }
        let Record::Member(data) = Record::of(member) else {
            return false;
        };
        let P = member_pressure(&Header::of(header), &data).P;
        let S = q * 1_000_000 / P;
        if (100..=4000).contains(&S) && line_load(P, S) == q {
            member.set("S", S);
            return true;
        }
    }
    false
}

fn modulus(chance: &mut Chance, kind: i128, side: Side) -> Drawn {
    let W = chance.between(20_000, W_HIGHEST);
    let l = chance.between(400, 1000);
    let beta_b = chance.between(50, 100);
    let (mut eta, mut sigma1) = (100, 0);
    if kind == 5 || kind == 8 {
        eta = chance.between(50, 100);
        sigma1 = chance.between(0, 150);
    }
    let bending = beta_b * eta * l * l;
    let q = match kind {
        5 => line_load_at_edge(100_000_000_000, W * (214 - sigma1), 833, bending, side),
        8 => line_load_at_edge(2_000_000_000, W * (197 - sigma1), 25, bending, side),
        _ => line_load_at_edge(5_000_000_000, W, 29, beta_b * l * l, side),
    }?;
    let mut header = quiet_header();
    let mut member = quiet_member(kind);
    let fields = [
        ("W", W),
        ("l", l),
        ("beta_b", beta_b),
        ("eta", eta),
        ("sigma1", sigma1),
    ];
    for (name, value) in fields {
        member.set(name, value);
    }
    load(chance, &mut header, &mut member, q).then_some((header, member))
}

fn shear(chance: &mut Chance, kind: i128, side: Side) -> Drawn {
    let A = chance.between(2000, A_HIGHEST);
    let l = chance.between(200, 1000);
    let beta_s = chance.between(20, 100);
    let eta = if kind == 5 || kind == 8 {
        chance.between(50, 100)
    } else {
        100
    };
    let q = match kind {
        5 => line_load_at_edge(2_000_000_000, A, 9, beta_s * eta * l, side),
        8 => line_load_at_edge(12_500_000, A, 7, beta_s * l, side),
        _ => line_load_at_edge(20_000_000, A, 9, beta_s * l, side),
    }?;
    let mut header = quiet_header();
    let mut member = quiet_member(kind);
    for (name, value) in [("A", A), ("l", l), ("beta_s", beta_s), ("eta", eta)] {
        member.set(name, value);
    }
    load(chance, &mut header, &mut member, q).then_some((header, member))
}
