//! The document, "Numbers off the drawing board": the twelve numbered cases and
//! the printed example; then points of the rules the cases leave open.

#![allow(non_snake_case)]

mod common;

use common::{member, plate, required, sheet, vessel_v, vessel_v2, vessels, with};
use second::form::Form;
use second::loads;
use second::print::answer;
use second::sheet::{Header, Plate, Record};
use std::slice;

fn sea(header: &Form, z: i128) -> i128 {
    loads::sea(&Header::of(header), z).P
}

fn relief(header: &Form) -> i128 {
    loads::relief(&Header::of(header))
}

fn as_plate(form: &Form) -> Plate {
    match Record::of(form) {
        Record::Plate(plate) => plate,
        Record::Member(_) => panic!("not a plate"),
    }
}

fn pressure(header: &Form, record: &Form) -> i128 {
    loads::pressure(&Header::of(header), &Record::of(record)).P
}

fn numbers(a: i128, b: i128, c: i128) -> [Option<i128>; 3] {
    [Some(a), Some(b), Some(c)]
}

#[test]
fn case_1_sea_at_and_above_the_draught() {
    let v = vessel_v();
    assert_eq!(sea(&v, 0), 27_526_860);
    assert_eq!(sea(&v, 250), 3_001_860);
    assert_eq!(sea(&v, 251), 3_259_000);
}

#[test]
fn case_2_sea_without_waves_and_with_high_ones() {
    let still = with(&vessel_v(), &[("H", 0)]);
    assert_eq!(sea(&still, 250), 0);
    assert_eq!(sea(&still, 251), 3_250_000);
    let high = with(&vessel_v(), &[("H", 120)]);
    assert_eq!(sea(&high, 251), 6_426_000);
}

#[test]
fn case_3_relief() {
    assert_eq!(relief(&vessel_v()), 676_890);
    assert_eq!(relief(&with(&vessel_v(), &[("H", 120), ("D0", 100)])), 0);
}

#[test]
fn case_4_bottom_plate_longitudinal() {
    assert_eq!(required(&vessel_v(), &plate(2)), numbers(530, 315, 617));
}

#[test]
fn case_5_bottom_plate_transverse() {
    assert_eq!(loads::panel_factor(&as_plate(&plate(1))), 1040);
    assert_eq!(required(&vessel_v(), &plate(1)), numbers(605, 420, 1034));
}

#[test]
fn case_6_panel_factor_is_capped() {
    let narrow = with(&plate(1), &[("b1", 10), ("b2", 60)]);
    assert_eq!(loads::panel_factor(&as_plate(&narrow)), 26_000);
}

/// Kind 1, S 500, K2 1000, ZB 1,000,000: what rule 3 needs at a moment.
fn rule_3_at(M: i128) -> Option<i128> {
    let square = with(&plate(1), &[("b1", 1000), ("b2", 10)]);
    assert_eq!(loads::panel_factor(&as_plate(&square)), 1000);
    let v = with(&vessel_v(), &[("M", M), ("ZB", 1_000_000)]);
    required(&v, &square)[2]
}

#[test]
fn case_7_greater_moment_needs_less() {
    assert_eq!(rule_3_at(104_671), Some(1100));
    assert_eq!(rule_3_at(104_672), Some(1094));
}

#[test]
fn case_8_none() {
    assert_eq!(rule_3_at(209_999), None);
    assert_eq!(rule_3_at(210_000), None);
}

#[test]
fn case_9_inner_bottom() {
    let loaded = with(&plate(4), &[("cargo", 30_000)]);
    assert_eq!(required(&vessel_v(), &loaded), numbers(458, 329, 617));
}

#[test]
fn case_10_bottom_longitudinal() {
    let P = pressure(&vessel_v(), &member(5));
    assert_eq!(loads::line_load(P, 500), 13_764);
    assert_eq!(required(&vessel_v(), &member(5)), numbers(420, 567, 168));
}

#[test]
fn case_11_floor() {
    let floor = with(&member(6), &[("l", 500)]);
    assert_eq!(required(&vessel_v(), &floor), numbers(508, 1996, 310));
}

#[test]
fn case_12_web_either_side_of_12000() {
    let wide = with(&member(5), &[("S", 600)]);
    let web = |L| required(&with(&vessel_v(), &[("L", L)]), &wide)[0];
    assert_eq!(web(11_999), Some(481));
    assert_eq!(web(12_000), Some(450));
}

#[test]
fn printed_example() {
    let bottom = with(&plate(2), &[("id", 7), ("T", 600)]);
    let longitudinal = with(
        &member(5),
        &[("id", 12), ("T", 420), ("W", 560), ("A", 168)],
    );
    let sheet = sheet(&vessel_v(), &[bottom, longitudinal]);
    assert_eq!(answer(&sheet), "7 3 617 0\n12 5 567 0\n2 2\n");
}

#[test]
fn passes_print_zeros_and_an_empty_sheet_is_accepted() {
    let bottom = with(&plate(2), &[("id", 7), ("T", 617)]);
    let longitudinal = with(
        &member(5),
        &[("id", 12), ("T", 420), ("W", 567), ("A", 168)],
    );
    let full = sheet(&vessel_v(), &[bottom, longitudinal]);
    assert_eq!(answer(&full), "7 0 0 0\n12 0 0 0\n2 0\n");
    for v in vessels() {
        assert_eq!(answer(&sheet(&v, &[])), "0 0\n");
    }
}

#[test]
fn the_first_failed_rule_is_named() {
    let thin = with(&plate(2), &[("T", 1)]);
    assert_eq!(answer(&sheet(&vessel_v(), &[thin])), "1 1 530 0\n1 1\n");
    let weak = with(&member(5), &[("T", 420), ("W", 567), ("A", 167)]);
    assert_eq!(answer(&sheet(&vessel_v(), &[weak])), "1 6 168 0\n1 1\n");
}

#[test]
fn ballast_and_relief() {
    let v = vessel_v();
    let ballast = [("z", 10), ("ballast", 1), ("zL", 400)];
    let pB = 98_100 * 490;
    assert_eq!(pressure(&v, &with(&plate(1), &ballast)), pB - 676_890);
    assert_eq!(pressure(&v, &with(&plate(3), &ballast)), pB);
    // The sea or the cargo where it is greater.
    let low = [("z", 0), ("ballast", 1), ("zL", 0)];
    assert_eq!(pressure(&v, &with(&plate(2), &low)), 27_526_860);
    let loaded = with(&plate(4), &low);
    let loaded = with(&loaded, &[("cargo", 200_000)]);
    assert_eq!(pressure(&v, &loaded), 200_000_000);
    // No relief is taken off where waves would make it negative.
    let shallow = with(&v, &[("H", 120), ("D0", 100)]);
    assert_eq!(pressure(&shallow, &with(&plate(1), &ballast)), pB);
}

#[test]
fn two_runs_round_the_half_up() {
    let v = with(&vessel_v(), &[("runs", 1), ("D0", 251)]);
    // 56407.5 x 251 = 14,158,282.5
    assert_eq!(pressure(&v, &member(8)), 14_158_283 + 3_001_860);
    assert_eq!(pressure(&v, &member(5)), 98_100 * 251 + 3_001_860);
    let one_run = with(&v, &[("runs", 0)]);
    assert_eq!(pressure(&one_run, &member(7)), 98_100 * 251 + 3_001_860);
}

/// By ZB in version 1 whatever the kind, and in version 2 by ZB on the bottom and by
/// ZDB on the inner bottom.
#[test]
fn hull_stress_rounds_up() {
    let stress = |header: Form, kind| loads::hull_stress(&Header::of(&header), kind);
    for (M, modulus, R) in [
        (0, 1, 0),
        (1, 100_000_000, 1),
        (1_000_000, 1, 1_000_000_000_000),
        (20_000, 200_000, 100_000),
        (20_000, 300_000, 66_667),
    ] {
        let fields = |name| [("M", M), (name, modulus)];
        for kind in 1..=4 {
            assert_eq!(stress(with(&vessel_v(), &fields("ZB")), kind), R);
        }
        for (kind, name) in [(1, "ZB"), (2, "ZB"), (3, "ZDB"), (4, "ZDB")] {
            assert_eq!(stress(with(&vessel_v2(), &fields(name)), kind), R);
        }
    }
}

#[test]
fn second_form_of_rule_3_is_for_the_bottom_only() {
    let v = with(&vessel_v(), &[("M", 210_000), ("ZB", 1_000_000)]);
    assert_eq!(required(&v, &plate(1))[2], None);
    assert_eq!(required(&v, &plate(2))[2], None);
    // 25 T2 1040^2 >= 1156 x 500^2 x 210,000 and 10^8 T2 >= 1521 x 500^2 x 210,000
    assert_eq!(required(&v, &plate(3))[2], Some(1499));
    assert_eq!(required(&v, &plate(4))[2], Some(894));
    // Nor by a modulus of its own, beside a bottom under R 2100 alone.
    let own = [("M", 210_000), ("ZB", 100_000_000), ("ZDB", 1_000_000)];
    let v = with(&vessel_v2(), &own);
    let rule_3 = [1, 2, 3, 4].map(|kind| required(&v, &plate(kind))[2]);
    assert_eq!(rule_3, [150, 90, 1499, 894].map(Some));
}

/// R 25,000 by ZDB 800,000 and 400,000 by ZDB 50,000, where ZB gives 100,000. Kind 3:
/// T2 >= 10.6879 R; kind 4: T2 >= 3.8025 R.
#[test]
fn the_inner_bottom_answers_to_its_own_modulus() {
    let rule_3 = |v: &Form, kind| required(v, &plate(kind))[2];
    for (ZDB, kind_3, kind_4) in [
        (800_000, 517, 309),
        (200_000, 1034, 617),
        (50_000, 2068, 1234),
    ] {
        let v = with(&vessel_v2(), &[("ZDB", ZDB)]);
        let found = [1, 2, 3, 4].map(|kind| rule_3(&v, kind));
        assert_eq!(found, [1034, 617, kind_3, kind_4].map(Some));
        // The depth moves nothing.
        let deeper = with(&v, &[("depth", 1000)]);
        assert_eq!([1, 2, 3, 4].map(|kind| rule_3(&deeper, kind)), found);
    }
    // In version 1 it has no other one than the bottom.
    let found = [1, 2, 3, 4].map(|kind| rule_3(&vessel_v(), kind));
    assert_eq!(found, [1034, 617, 1034, 617].map(Some));
}

/// R 10,000 is met exactly, with S 1000, by 390 (kinds 2 and 4) and, with K2 2000, by
/// 340 (kinds 1 and 3); R 10,001, by a modulus one less, asks for one more.
#[test]
fn rule_3_at_equality_by_either_modulus() {
    let whole = [("M", 10_000), ("ZB", 1_000_000), ("ZDB", 1_000_000)];
    let v = with(&vessel_v2(), &whole);
    let rule_3 = |v: &Form| {
        [1, 2, 3, 4].map(|kind| {
            let b = kind % 2 * 70;
            let wide = [("S", 1000), ("b1", b), ("b2", b)];
            required(v, &with(&plate(kind), &wide))[2].expect("a number")
        })
    };
    assert_eq!(rule_3(&v), [340, 390, 340, 390]);
    let less = |name| with(&v, &[(name, 999_999)]);
    assert_eq!(rule_3(&less("ZB")), [341, 391, 340, 390]);
    assert_eq!(rule_3(&less("ZDB")), [340, 390, 341, 391]);
}

/// The plates of cases 4 and 9, at what their rules need by their own modulus and one
/// less: by the other modulus each would be answered otherwise.
#[test]
fn a_sheet_of_version_2() {
    let plates = |bottom, inner| {
        let bottom = with(&plate(2), &[("T", bottom)]);
        let inner = [("id", 2), ("cargo", 30_000), ("T", inner)];
        [bottom, with(&plate(4), &inner)]
    };
    let said = |ZDB, bottom, inner| {
        let v = with(&vessel_v2(), &[("ZDB", ZDB)]);
        answer(&sheet(&v, &plates(bottom, inner)))
    };
    // Rule 1 asks 458 of the inner bottom plate, rule 3 309 and 1234.
    assert_eq!(said(800_000, 617, 458), "1 0 0 0\n2 0 0 3\n2 0\n");
    assert_eq!(said(800_000, 616, 457), "1 3 617 0\n2 1 458 3\n2 2\n");
    assert_eq!(said(50_000, 617, 1234), "1 0 0 0\n2 0 0 3\n2 0\n");
    assert_eq!(said(50_000, 617, 1233), "1 0 0 0\n2 3 1234 3\n2 1\n");
    let v1 = answer(&sheet(&vessel_v(), &plates(617, 616)));
    assert_eq!(v1, "1 0 0 0\n2 3 617 3\n2 1\n");
}

/// With ZDB as great as ZB a sheet of version 2 is answered as the same in version 1.
#[test]
fn with_equal_moduli_the_version_does_not_show() {
    let v2 = with(&vessel_v2(), &[("ZDB", 200_000)]);
    let mut records: Vec<Form> = (1..=4).map(plate).collect();
    records.extend((5..=8).map(member));
    for T in [1, 308, 458, 616, 617, 1033, 1034, 4000] {
        for record in &records {
            let record = with(record, &[("T", T)]);
            let [one, two] = [vessel_v(), v2.clone()].map(|v| sheet(&v, slice::from_ref(&record)));
            assert_eq!(answer(&one), answer(&two));
            assert_eq!(one.len() + 8, two.len());
        }
    }
}

#[test]
fn no_stress_left_for_rule_5() {
    // At z = D0 without waves q is 0, and W = 1 would do under 214.
    let v = with(&vessel_v(), &[("H", 0)]);
    let at = |sigma1| required(&v, &with(&member(5), &[("z", 250), ("sigma1", sigma1)]))[1];
    assert_eq!([at(213), at(214), at(255)], [Some(1), None, None]);
    // q 12,263: 2x10^9 W >= 25 x 100 x 90 x 12,263 x 100^2 at 196.
    let short = with(&member(8), &[("l", 100)]);
    let girder = |sigma1| required(&v, &with(&short, &[("sigma1", sigma1)]))[1];
    assert_eq!(
        [girder(196), girder(197), girder(198)],
        [Some(13_796), None, None]
    );
}

#[test]
fn girders_have_no_eta_in_shear() {
    let shear = |kind, eta| required(&vessel_v(), &with(&member(kind), &[("eta", eta)]))[2];
    assert_eq!(shear(8, 1), shear(8, 100));
    assert_ne!(shear(5, 1), shear(5, 100));
}

#[test]
fn rule_2_can_ask_for_the_whole_gauge() {
    let wide = with(&plate(3), &[("S", 2000)]);
    let at = |cargo| required(&vessel_v(), &with(&wide, &[("cargo", cargo)]))[1];
    assert_eq!(at(156_250), Some(4000));
    assert_eq!(at(156_251), None);
    assert_eq!(at(0), Some(1));
}
