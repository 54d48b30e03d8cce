//! Which load decided: the source that a verdict names, for each load, where two
//! loads are equal or a step apart, on passes and whichever rule fails.

#![allow(non_snake_case)]

mod common;

use common::{member, plate, sheet, vessel_v, with};
use second::form::Form;
use second::loads::{plate_loads, pressure, Pressure};
use second::print::answer;
use second::sheet::{Header, Record};

fn source(header: &Form, record: &Form) -> i128 {
    pressure(&Header::of(header), &Record::of(record)).source
}

/// With ballast up to a tank top.
fn ballasted(record: &Form, zL: i128) -> Form {
    with(record, &[("ballast", 1), ("zL", zL)])
}

/// How much greater ballast is than the load beside it.
fn lead(header: &Form, record: &Form) -> i128 {
    let Record::Plate(plate) = Record::of(record) else {
        panic!("not a plate");
    };
    match plate_loads(&Header::of(header), &plate)[..] {
        [beside, ballast] => ballast.P - beside.P,
        _ => panic!("no ballast"),
    }
}

#[test]
fn the_sea_at_and_above_the_draught() {
    let v = vessel_v();
    for record in [plate(1), plate(2), member(5)] {
        let at = |z| source(&v, &with(&record, &[("z", z)]));
        assert_eq!([at(0), at(250), at(251), at(1000)], [0, 0, 1, 1]);
    }
}

#[test]
fn floors_transverses_and_girders_say_0() {
    for kind in 6..=8 {
        for (D0, runs) in [(1, 0), (1, 1), (1000, 0), (1000, 1)] {
            let v = with(&vessel_v(), &[("D0", D0), ("runs", runs)]);
            assert_eq!(source(&v, &member(kind)), 0);
        }
    }
}

#[test]
fn cargo_and_ballast() {
    let v = vessel_v();
    for kind in [3, 4] {
        assert_eq!(source(&v, &plate(kind)), 3);
        assert_eq!(source(&v, &ballasted(&plate(kind), 0)), 2);
        let loaded = with(&plate(kind), &[("cargo", 200_000)]);
        assert_eq!(source(&v, &loaded), 3);
        assert_eq!(source(&v, &ballasted(&loaded, 1200)), 3);
    }
    for kind in [1, 2] {
        assert_eq!(source(&v, &ballasted(&plate(kind), 1200)), 2);
        let high = with(&plate(kind), &[("z", 251)]);
        assert_eq!(source(&v, &ballasted(&high, 251)), 2);
    }
}

/// D0 20 x 15 and zL 23 x 15 - 100: equal at every z up to zL, and the sea is named.
#[test]
fn ballast_as_great_as_the_sea() {
    let v = with(&vessel_v(), &[("D0", 300)]);
    for kind in [1, 2] {
        for z in [0, 100, 244] {
            let at = |zL| ballasted(&with(&plate(kind), &[("z", z)]), zL);
            let leads = [244, 245, 246].map(|zL| lead(&v, &at(zL)));
            assert_eq!(leads, [-98_100, 0, 98_100]);
            assert_eq!([244, 245, 246].map(|zL| source(&v, &at(zL))), [0, 0, 2]);
        }
    }
    // Both are 0 at the draught in still water, with D0 20 x 50 and zL 23 x 50 - 100.
    let still = with(&v, &[("H", 0), ("D0", 1000)]);
    let at_draught = ballasted(&with(&plate(1), &[("z", 1000)]), 1050);
    let pressed = pressure(&Header::of(&still), &Record::of(&at_draught));
    assert_eq!(pressed, Pressure { P: 0, source: 0 });
    assert_eq!(lead(&still, &at_draught), 0);
}

/// Equal at a cargo of 98.1 (zL - z + 100) Pa, and ballast is named.
#[test]
fn ballast_as_great_as_the_cargo() {
    let v = vessel_v();
    for kind in [3, 4] {
        let at = |zL, cargo| ballasted(&with(&plate(kind), &[("z", 20), ("cargo", cargo)]), zL);
        let cases = [
            (20, 9809, 1000, 2),
            (20, 9810, 0, 2),
            (20, 9811, -1000, 3),
            (420, 49_050, 0, 2),
            (419, 49_050, -98_100, 3),
            (421, 49_050, 98_100, 2),
        ];
        for (zL, cargo, ahead, named) in cases {
            let record = at(zL, cargo);
            assert_eq!(lead(&v, &record), ahead, "{zL} {cargo}");
            assert_eq!(source(&v, &record), named, "{zL} {cargo}");
        }
    }
}

/// pB > sea > pB - pM: without its relief ballast would be named.
#[test]
fn relief_is_taken_off_before_the_loads_are_compared() {
    let v = vessel_v();
    let relief = 676_890;
    // zL 185 gives 27,958,500 before relief, and the sea at z 0 is 27,526,860.
    let below = ballasted(&plate(2), 185);
    assert_eq!(lead(&v, &below), 98_100 * 285 - relief - 27_526_860);
    assert!((-relief..0).contains(&lead(&v, &below)));
    assert_eq!(source(&v, &below), 0);
    assert_eq!(source(&v, &ballasted(&plate(2), 188)), 2);
    // Above a deep draught: 9,810,000 against 3,250,000, less 14,715 D0.
    let at = |D0| {
        let still = with(&v, &[("H", 0), ("D0", D0)]);
        source(&still, &ballasted(&with(&plate(1), &[("z", 900)]), 900))
    };
    assert_eq!([at(445), at(446)], [2, 1]);
}

#[test]
fn each_source_on_a_pass() {
    let v = vessel_v();
    let said = |record: Form| answer(&sheet(&v, &[record]));
    let thick = |kind| with(&plate(kind), &[("T", 4000)]);
    assert_eq!(said(thick(2)), "1 0 0 0\n1 0\n");
    assert_eq!(said(with(&thick(2), &[("z", 251)])), "1 0 0 1\n1 0\n");
    assert_eq!(said(ballasted(&thick(2), 400)), "1 0 0 2\n1 0\n");
    assert_eq!(said(thick(4)), "1 0 0 3\n1 0\n");
    let strong = [("T", 4000), ("W", 100_000), ("A", 16_000)];
    let strong = |kind| with(&member(kind), &strong);
    assert_eq!(said(strong(5)), "1 0 0 0\n1 0\n");
    assert_eq!(said(with(&strong(5), &[("z", 251)])), "1 0 0 1\n1 0\n");
    assert_eq!(said(strong(8)), "1 0 0 0\n1 0\n");
}

/// Also rules 1, 3 and 4, which no pressure enters, name the record's load.
#[test]
fn a_source_whichever_rule_fails() {
    let v = vessel_v();
    let said = |record: Form| answer(&sheet(&v, &[record]));
    let bottom = ballasted(&plate(2), 400);
    assert_eq!(said(with(&bottom, &[("T", 529)])), "1 1 530 2\n1 1\n");
    assert_eq!(said(with(&bottom, &[("T", 616)])), "1 3 617 2\n1 1\n");
    let deep = ballasted(&plate(2), 1200);
    assert_eq!(said(with(&deep, &[("T", 616)])), "1 2 676 2\n1 1\n");
    let inner = with(&plate(4), &[("cargo", 30_000)]);
    assert_eq!(said(with(&inner, &[("T", 457)])), "1 1 458 3\n1 1\n");
    let high = with(&member(5), &[("z", 251)]);
    assert_eq!(said(with(&high, &[("T", 419)])), "1 4 420 1\n1 1\n");
}
