//! The six rules, each inequality as the document prints it, and the least
//! number of the gauge that meets one.

use crate::limits::{A_HIGHEST, T_HIGHEST, W_HIGHEST};
use crate::loads::{hull_stress, line_load, member_pressure, panel_factor, plate_pressure};
use crate::sheet::{Header, Member, Plate, Record};

/// Rule 1, least thickness t1.
fn rule_1(kind: i128, L: i128, K: i128, S: i128, T: i128) -> bool {
    let c = match kind {
        1 => 18_500,
        2 => 11_000,
        _ => 15_000,
    };
    let X = 100 * T - c - 36 * S;
    if kind <= 2 {
        X >= 0 && 1000 * X * X >= 9 * L * L * K
    } else {
        X >= 0 && 3125 * X * X >= 8 * L * L * K
    }
}

/// Rule 2, thickness t2 under pressure P.
fn rule_2(kind: i128, K: i128, S: i128, P: i128, T: i128) -> bool {
    if kind == 1 || kind == 3 {
        39_062_500_000 * T * T >= S * S * K * P
    } else {
        625_000_000_000 * T * T >= 9 * S * S * K * P
    }
}

/// What the bottom's form of rule 3 goes by, and what it must be above for the second one;
/// the inner bottom has only the first.
pub fn fork(kind: i128, K: i128, R: i128) -> Option<(i128, i128)> {
    match kind {
        1 => Some((1156 * K * R, 121_000_000_000)),
        2 => Some((6084 * K * R, 625_000_000_000)),
        _ => None,
    }
}

/// Whether rule 3 has its second form.
pub fn has_second_form(kind: i128, K: i128, R: i128) -> bool {
    fork(kind, K, R).is_some_and(|(product, limit)| product > limit)
}

/// Rule 3, thickness t3 under hull girder stress. At R of 210,000 or more the
/// left of a second form is 0 or less and its right above 0: no T meets it.
fn rule_3_transverse(kind: i128, K: i128, S: i128, R: i128, K2: i128, T: i128) -> bool {
    if has_second_form(kind, K, R) {
        T * T * K2 * K2 * (210_000 - R) >= 504_100_000 * S * S * K
    } else {
        25 * T * T * K2 * K2 >= 1156 * S * S * R
    }
}

fn rule_3_longitudinal(kind: i128, K: i128, S: i128, R: i128, T: i128) -> bool {
    if has_second_form(kind, K, R) {
        10 * T * T * (210_000 - R) >= 1681 * S * S * K
    } else {
        100_000_000 * T * T >= 1521 * S * S * R
    }
}

/// Rule 4, web thickness.
fn rule_4(kind: i128, L: i128, K: i128, S: i128, T: i128) -> bool {
    if kind == 5 && L < 12_000 {
        let X = 100 * T - 16_300 - 45 * S;
        X >= 0 && 6250 * X * X >= L * L * K
    } else if kind == 5 {
        let X = 10 * T - S;
        X >= 0 && X * X >= 15_210 * K
    } else {
        let X = 100 * T - 38_000;
        X >= 0 && 3125 * X * X >= 8 * L * L * K
    }
}

/// Rule 5, section modulus. With no stress left over from the hull girder
/// nothing meets it, not even with q = 0, so that is asked first.
fn rule_5(member: &Member, q: i128, W: i128) -> bool {
    let Member {
        kind,
        l,
        beta_b,
        eta,
        sigma1,
        ..
    } = *member;
    match kind {
        5 => sigma1 < 214 && 100_000_000_000 * W * (214 - sigma1) >= 833 * beta_b * eta * q * l * l,
        8 => sigma1 < 197 && 2_000_000_000 * W * (197 - sigma1) >= 25 * beta_b * eta * q * l * l,
        _ => 5_000_000_000 * W >= 29 * beta_b * q * l * l,
    }
}

/// Rule 6, shear area. Girders (kind 8) have no eta here.
fn rule_6(member: &Member, q: i128, A: i128) -> bool {
    let Member {
        kind,
        l,
        beta_s,
        eta,
        ..
    } = *member;
    match kind {
        5 => 2_000_000_000 * A >= 9 * beta_s * eta * q * l,
        8 => 12_500_000 * A >= 7 * beta_s * q * l,
        _ => 20_000_000 * A >= 9 * beta_s * q * l,
    }
}

/// What one rule demands of one record.
pub struct Demand {
    pub rule: i128,
    /// The T, W or A entered on the sheet.
    pub entered: i128,
    /// The gauge is every whole number from 1 to this one.
    pub gauge: i128,
    meets: Box<dyn Fn(i128) -> bool>,
}

impl Demand {
    fn new(
        rule: i128,
        entered: i128,
        gauge: i128,
        meets: impl Fn(i128) -> bool + 'static,
    ) -> Demand {
        let meets = Box::new(meets);
        Demand {
            rule,
            entered,
            gauge,
            meets,
        }
    }

    pub fn is_met(&self) -> bool {
        self.is_met_by(self.entered)
    }

    pub fn is_met_by(&self, number: i128) -> bool {
        (self.meets)(number)
    }

    /// The least number of the gauge that meets the rule, by a walk from 1.
    pub fn least(&self) -> Option<i128> {
        (1..=self.gauge).find(|number| self.is_met_by(*number))
    }
}

/// The three rules a record answers to, in order.
pub fn demands(header: &Header, record: &Record) -> [Demand; 3] {
    match record {
        Record::Plate(plate) => plate_demands(header, plate),
        Record::Member(member) => member_demands(header, member),
    }
}

fn plate_demands(header: &Header, plate: &Plate) -> [Demand; 3] {
    let L = header.L;
    let Plate { kind, K, S, T, .. } = *plate;
    let P = plate_pressure(header, plate).P;
    let R = hull_stress(header, kind);
    let rule_3 = if kind == 1 || kind == 3 {
        let K2 = panel_factor(plate);
        Demand::new(3, T, T_HIGHEST, move |T| {
            rule_3_transverse(kind, K, S, R, K2, T)
        })
    } else {
        Demand::new(3, T, T_HIGHEST, move |T| {
            rule_3_longitudinal(kind, K, S, R, T)
        })
    };
    [
        Demand::new(1, T, T_HIGHEST, move |T| rule_1(kind, L, K, S, T)),
        Demand::new(2, T, T_HIGHEST, move |T| rule_2(kind, K, S, P, T)),
        rule_3,
    ]
}

fn member_demands(header: &Header, member: &Member) -> [Demand; 3] {
    let L = header.L;
    let member = *member;
    let Member {
        kind,
        K,
        S,
        T,
        W,
        A,
        ..
    } = member;
    let q = line_load(member_pressure(header, &member).P, S);
    [
        Demand::new(4, T, T_HIGHEST, move |T| rule_4(kind, L, K, S, T)),
        Demand::new(5, W, W_HIGHEST, move |W| rule_5(&member, q, W)),
        Demand::new(6, A, A_HIGHEST, move |A| rule_6(&member, q, A)),
    ]
}
