//! The maker: the same seed gives the same sheets, and a short run already
//! brings up every row the tally asks for, in proportion.

#![allow(non_snake_case)]

mod common;

use common::{hull, plate, sheet, vessel_v, vessel_v2, with};
use second::header_case::{all, found, HeaderCase};
use second::hull_case::{FaultsBehind, HullCase};
use second::make::sheets;
use second::print::verdicts;
use second::stream::framed;
use second::tally::Tally;
use std::sync::LazyLock;

/// What a short run brings up, counted once for all tests.
static SHORT_RUN: LazyLock<Tally> = LazyLock::new(|| Tally::of(&stream(7, 3000)));

fn stream(seed: u64, count: usize) -> Vec<u8> {
    sheets(seed)
        .take(count)
        .flat_map(|sheet| framed(&sheet))
        .collect()
}

#[test]
fn the_seed_decides() {
    assert_eq!(stream(3, 40), stream(3, 40));
    assert_ne!(stream(3, 40), stream(4, 40));
}

#[test]
fn a_short_run_brings_up_every_row() {
    let tally = &SHORT_RUN;
    assert_eq!(tally.sheets, 3000);
    assert!(!tally.broken);
    // 20,000 sheets bring up 200; 3,000 bring up 30.
    assert!(tally.passes >= 30);
    for rule in 1..=6 {
        assert!(tally.with_number[rule] >= 30, "rule {rule}");
    }
    for rule in [2, 3, 5, 6] {
        assert!(tally.without[rule] >= 30, "rule {rule} without a number");
    }
    for source in 0..4 {
        assert!(tally.on_passes[source] >= 30, "source {source} on a pass");
        assert!(tally.on_failures[source] >= 30, "source {source}");
    }
    // Ballast as great as the sea, at or below the draught alone, and as the cargo.
    assert!(tally.ties[0] >= 30 && tally.ties[3] >= 30);
    assert_eq!(tally.ties[1..3], [0, 0]);
    for number in [1, 2, 3, 4, 6, 7, 8, 9] {
        assert!(tally.refusals[number] >= 30, "refusal {number}");
    }
    assert_eq!(tally.refusals[5], 0);
    for kind in 1..=4 {
        assert!(tally.moduli.passes_by_own[kind] >= 30, "kind {kind} passes");
        assert!(tally.moduli.fails_by_own[kind] >= 30, "kind {kind} fails");
    }
}

/// Sheets of either version are judged about as often; more of version 2 are refused
/// by 3, as it has more fields.
#[test]
fn the_versions_are_even() {
    let tally = &SHORT_RUN;
    let of = |number| [1, 2].map(|version| tally.by_version[&(version, number)]);
    let [one, two] = of(0);
    assert!(one.abs_diff(two) < (one + two) / 10, "{one} {two}");
    for number in [3, 4, 6, 7, 8] {
        assert!(of(number).iter().all(|count| *count >= 15), "{number}");
    }
    // Only a hull with a depth can be too slender.
    assert!(tally.by_version[&(2, 9)] >= 15);
    assert!(!tally.by_version.contains_key(&(1, 9)));
}

#[test]
fn the_tally_complains_of_9_without_a_depth() {
    let mut tally = Tally::default();
    let complaint = "version 1 refused by 9: 1 and not none".to_string();
    assert!(!tally.complaints().contains(&complaint));
    tally.by_version.insert((1, 9), 1);
    assert!(tally.complaints().contains(&complaint));
}

/// 3,000 sheets bring up each case of a header once; 60 do not, and the tally says so.
#[test]
fn every_case_of_a_header_comes_up() {
    for case in all() {
        assert!(SHORT_RUN.headers.contains_key(&case), "{case:?}");
    }
    let complaints = Tally::of(&stream(7, 60)).complaints();
    let unseen = "Cut { version: 2, bytes: 19 }: only 0".to_string();
    assert!(complaints.contains(&unseen), "{complaints:?}");
}

/// Kind 4 with S 1000 and no load: T2 >= 15.21 R, so that 780 meets R 40,000 exactly and
/// misses R 40,001; ZB 4,000,000 gives R 10,000 (390), ZB 400,000 R 100,000 (1234).
#[test]
fn plates_are_told_by_their_moduli() {
    let told = |ZB, ZDB, T| {
        let v = with(&vessel_v2(), &[("M", 40_000), ("ZB", ZB), ("ZDB", ZDB)]);
        let inner = with(&plate(4), &[("S", 1000), ("T", T)]);
        let moduli = Tally::of(&framed(&sheet(&v, &[inner]))).moduli;
        [
            moduli.passes_by_own,
            moduli.fails_by_own,
            moduli.just_passes,
            moduli.just_fails,
        ]
        .map(|by_kind| by_kind[4])
    };
    assert_eq!(told(400_000, 1_000_000, 780), [1, 0, 1, 0]);
    assert_eq!(told(4_000_000, 1_000_000, 780), [0, 0, 1, 0]);
    assert_eq!(told(400_000, 1_000_000, 781), [1, 0, 0, 0]);
    assert_eq!(told(4_000_000, 999_990, 780), [0, 1, 0, 1]);
    assert_eq!(told(400_000, 999_990, 780), [0, 0, 0, 1]);
    assert_eq!(told(4_000_000, 999_990, 779), [0, 1, 0, 0]);
}

/// What must come up, counted by hand.
#[test]
fn the_cases_of_a_header() {
    let cases = all();
    // Version 2 in 12 to 19 bytes; the versions that are not there, long and short.
    let first = 8 + 2 * 14;
    // L, D0, H, runs, M, ZB, n, zero in both versions; ZDB, depth, last_zero in one.
    let fields = 2 * (4 + 4 + 8 + 2 + 3 + 4 + 3 + 3) + 4 + 4 + 27;
    // As long as the other version's, as the longest, and a byte longer.
    let lengths = 2 + 2 + 2;
    // Wave heights, limits, at and beside them, faults behind; each field but runs at
    // fault first; wave heights and ends of L in version 1.
    let hulls = 3 * 2 * 3 * 4 + 10 + 3 * 2;
    assert_eq!(cases.len(), first + fields + lengths + hulls);
    let field = |version, field, value| HeaderCase::Field {
        version,
        field,
        value,
    };
    for (place, values) in [
        (10, [0, 1, 100_000_000, 100_000_001]),
        (11, [99, 100, 1000, 1001]),
    ] {
        for value in values {
            assert!(cases.contains(&field(2, place, value)));
        }
    }
    for bit in 0..27 {
        assert!(cases.contains(&field(2, 12, 1 << bit)));
    }
    for version in [1, 2] {
        for bit in 0..3 {
            assert!(cases.contains(&field(version, 9, 1 << bit)));
        }
    }
}

/// Sheets told by hand, by their length, version and refusal.
#[test]
fn cases_are_told_by_the_sheet() {
    let told = |sheet: &[u8]| found(sheet, verdicts(sheet).err());
    let mut sheet = [0x20; 20];
    assert_eq!(told(&sheet[..11]), []);
    for bytes in 12..20 {
        let cut = HeaderCase::Cut { version: 2, bytes };
        assert_eq!(told(&sheet[..bytes]), [cut]);
    }
    for (bytes, short) in [(12, true), (19, true), (20, false)] {
        sheet[0] = 0x70;
        let unknown = HeaderCase::Unknown { version: 7, short };
        assert_eq!(told(&sheet[..bytes]), [unknown]);
    }
}

/// The cases of length over depth that a sheet is.
fn hulls(sheet: &[u8]) -> Vec<HullCase> {
    let cases = found(sheet, verdicts(sheet).err()).into_iter();
    let hulls = cases.filter_map(|case| match case {
        HeaderCase::Hull { hull, .. } => Some(hull),
        _ => None,
    });
    hulls.collect()
}

/// What is at fault behind the header is told even where 9 comes first.
#[test]
fn hulls_at_a_limit_are_told() {
    for H in [0, 60, 120] {
        for (times, more) in [(35, -1), (35, 1), (25, 0), (25, 1)] {
            let v = hull(200 * times + more, H, 200);
            let with_faults = |wrong_length, faulty_record| {
                let behind = FaultsBehind {
                    wrong_length,
                    faulty_record,
                };
                [HullCase::AtLimit {
                    H,
                    times,
                    more,
                    behind,
                }]
            };
            let sound = sheet(&v, &[plate(2)]);
            assert_eq!(hulls(&sound), with_faults(false, false));
            assert_eq!(hulls(&sound[..35]), with_faults(true, false));
            let faulty = sheet(&v, &[with(&plate(2), &[("T", 0)])]);
            assert_eq!(hulls(&faulty), with_faults(false, true));
            let longer = [faulty, vec![0; 16]].concat();
            assert_eq!(hulls(&longer), with_faults(true, true));
        }
    }
}

#[test]
fn other_hulls_are_told() {
    assert_eq!(hulls(&hull(7002, 60, 200).pack()), []);
    let depth_first = HullCase::FieldFirst { field: 11 };
    assert_eq!(hulls(&hull(7001, 60, 99).pack()), [depth_first]);
    assert_eq!(hulls(&hull(5000, 60, 1001).pack()), []);
    let no_depth = HullCase::NoDepth { H: 60, L: 8000 };
    assert_eq!(hulls(&vessel_v().pack()), [no_depth]);
}
