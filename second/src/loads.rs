//! Pressures (mPa) with what each comes from, line load q (N/m), and the two
//! quantities R and K2 that rule 3 is written with.

use crate::quotient::Quotient;
use crate::sheet::{Header, Member, Plate, Record};
use std::cmp::Reverse;

/// What a pressure can come from: the sea at or below the draught, the sea above
/// it, ballast and cargo.
pub const SEA: i128 = 0;
pub const SEA_ABOVE: i128 = 1;
pub const BALLAST: i128 = 2;
pub const CARGO: i128 = 3;

/// A pressure and what it comes from.
#[derive(Clone, Copy, Debug, PartialEq, Eq)]
pub struct Pressure {
    pub P: i128,
    pub source: i128,
}

impl Pressure {
    fn new(P: i128, source: i128) -> Pressure {
        Pressure { P, source }
    }
}

/// Water so many cm high.
pub fn water(height: i128) -> i128 {
    98_100 * height
}

/// What waves add at or below the draught.
pub fn waves(header: &Header) -> i128 {
    50_031 * header.H
}

/// What they come to above it, and the least that is taken for that.
pub fn crest(header: &Header) -> i128 {
    50_150 * header.H
}
pub const LEAST_CREST: i128 = 3_000_000;

/// pWD, the wind.
pub fn wind(header: &Header) -> i128 {
    if blows(header) {
        3400 * header.H
    } else {
        250_000
    }
}

/// Whether the wind goes by the waves.
pub fn blows(header: &Header) -> bool {
    header.H == 120
}

/// Sea pressure at height z above the base line.
pub fn sea(header: &Header, z: i128) -> Pressure {
    let D0 = header.D0;
    if z <= D0 {
        Pressure::new(water(D0 - z) + waves(header), SEA)
    } else {
        let crest = crest(header).max(LEAST_CREST);
        Pressure::new(crest + wind(header), SEA_ABOVE)
    }
}

/// pB: the water in a tank up to its top, and a metre more.
pub fn ballast(plate: &Plate) -> i128 {
    water(plate.zL - plate.z + 100)
}

/// The least sea outside a tank, in still water.
pub fn least_sea(header: &Header) -> i128 {
    14_715 * header.D0
}

/// Relief pM: what the water outside takes off the ballast inside. Never negative.
pub fn relief(header: &Header) -> i128 {
    (least_sea(header) - waves(header)).max(0)
}

pub fn cargo(plate: &Plate) -> i128 {
    1000 * plate.cargo
}

/// Every load that a plate carries, one or two of them.
pub fn plate_loads(header: &Header, plate: &Plate) -> Vec<Pressure> {
    let pB = ballast(plate);
    let bottom = plate.kind == 1 || plate.kind == 2;
    let sea = sea(header, plate.z);
    let cargo = Pressure::new(cargo(plate), CARGO);
    let of_ballast = |P| Pressure::new(P, BALLAST);
    match (bottom, plate.ballast) {
        (true, false) => vec![sea],
        (true, true) => vec![sea, of_ballast(pB - relief(header))],
        (false, false) => vec![cargo],
        (false, true) => vec![cargo, of_ballast(pB)],
    }
}

/// The greatest of a plate's loads; of equal ones the one with the lower number.
pub fn plate_pressure(header: &Header, plate: &Plate) -> Pressure {
    let loads = plate_loads(header, plate).into_iter();
    let greatest = loads.max_by_key(|load| (load.P, Reverse(load.source)));
    greatest.expect("a plate carries a load")
}

/// 56407.5 D0: the water over a floor in two runs, before the half is rounded up.
pub fn water_in_two_runs(header: &Header) -> Quotient {
    Quotient::of(564_075 * header.D0, 10)
}

/// Floors, transverses and girders have no height: the sea presses on them as below
/// the draught.
pub fn member_pressure(header: &Header, member: &Member) -> Pressure {
    if member.kind == 5 {
        return sea(header, member.z);
    }
    let water = if header.two_runs {
        water_in_two_runs(header).up()
    } else {
        water(header.D0)
    };
    Pressure::new(water + waves(header), SEA)
}

/// The pressure that a record answers to, whatever its kind.
pub fn pressure(header: &Header, record: &Record) -> Pressure {
    match record {
        Record::Plate(plate) => plate_pressure(header, plate),
        Record::Member(member) => member_pressure(header, member),
    }
}

/// q before it is rounded up, and q.
pub fn line_load_exactly(P: i128, S: i128) -> Quotient {
    Quotient::of(P * S, 1_000_000)
}

pub fn line_load(P: i128, S: i128) -> i128 {
    line_load_exactly(P, S).up()
}

/// R before it is rounded up, and R, from the hull girder moment and the modulus where a
/// plate of this kind lies: the bottom's, or for kinds 3 and 4 the inner bottom's.
pub fn hull_stress_exactly(header: &Header, kind: i128) -> Quotient {
    let modulus = if kind <= 2 { header.ZB } else { header.ZDB() };
    Quotient::of(1_000_000 * header.M, modulus)
}

pub fn hull_stress(header: &Header, kind: i128) -> i128 {
    hull_stress_exactly(header, kind).up()
}

/// K2 before it is rounded down and capped, and K2, for transversely framed plates: only
/// they carry b1 and b2.
pub fn panel_factor_exactly(plate: &Plate) -> Quotient {
    let Plate { b1, b2, .. } = *plate;
    Quotient::of(1000 * (b1 * b1 + b2 * b2), b1 * b1)
}

pub fn panel_factor(plate: &Plate) -> i128 {
    panel_factor_exactly(plate).whole.min(26_000)
}
