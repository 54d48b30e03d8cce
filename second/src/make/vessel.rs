//! Headers: vessels over the whole range, most often where something turns.

use super::chance::Chance;
use crate::form::Form;
use crate::limits::{in_header, WAVE_HEIGHTS};
use crate::slender::greatest_ratio;
use crate::version::Version;

/// A header that no check turns away; its count is still to be filled in.
pub fn header(chance: &mut Chance, version: &Version) -> Form {
    let (M, ZB) = moment_and_modulus(chance);
    let fields = [
        ("version", version.number),
        ("L", length(chance)),
        ("D0", draught(chance)),
        ("H", *chance.of(&WAVE_HEIGHTS)),
        ("runs", *chance.of(&[0, 0, 1])),
        ("M", M),
        ("ZB", ZB),
    ];
    let mut header = Form::filled(version.layout, &fields);
    if header.has("ZDB") {
        let (ZB, ZDB) = two_moduli(chance, M, ZB);
        header.fill(&[("ZB", ZB), ("ZDB", ZDB)]);
    }
    if header.has("depth") {
        let depth = depth(chance, &header);
        header.set("depth", depth);
    }
    header
}

/// Rule 4 changes its form at 12000. With round lengths and K = 1000 the roots
/// of rules 1 and 4 come out whole, so that "at least" is tried at equality.
fn length(chance: &mut Chance) -> i128 {
    match chance.below(4) {
        0 => *chance.of(&[4000, 4001, 13_499, 13_500]),
        1 => *chance.of(&[11_999, 12_000, 12_001]),
        2 => 250 * chance.between(16, 54),
        _ => chance.between(4000, 13_500),
    }
}

/// Deep draughts make floors and girders fail in shear with nothing in the
/// gauge; odd ones make the half of 56407.5 D0 show; with multiples of 20, from 100
/// on, ballast less relief can equal the sea.
fn draught(chance: &mut Chance) -> i128 {
    match chance.below(6) {
        0 => *chance.of(&[1, 2, 999, 1000]),
        1 => chance.between(850, 1000),
        2 => *chance.of(&[100, 250, 500, 750, 1000]),
        3 => 2 * chance.between(0, 499) + 1,
        4 => 20 * chance.between(5, 50),
        _ => chance.between(1, 1000),
    }
}

fn moment_and_modulus(chance: &mut Chance) -> (i128, i128) {
    match chance.below(9) {
        // No hull girder stress: rules 1 and 2 decide alone.
        0 => (0, chance.between(1, 100_000_000)),
        // R with a whole root, or 210,000 - R with one: rule 3 at equality.
        1 => {
            let R = *chance.of(&[
                2500, 10_000, 40_000, 90_000, 160_000, 120_000, 170_000, 200_000,
            ]);
            (R, 1_000_000)
        }
        // So much stress that it shows even with K2 at its cap.
        2 => (
            chance.between(100_000, 1_000_000),
            chance.between(3000, 300_000),
        ),
        3 => (chance.between(0, 1_000_000), chance.between(1, 10_000_000)),
        4 => {
            let M = *chance.of(&[0, 1, 999_999, 1_000_000]);
            (M, *chance.of(&[1, 2, 3, 99_999_999, 100_000_000]))
        }
        _ => {
            let R = stress(chance);
            aimed_at(chance, R)
        }
    }
}

/// R to aim at: little, much, or where rule 3 turns.
fn stress(chance: &mut Chance) -> i128 {
    match chance.below(4) {
        0 => chance.between(1, 30_000),
        1 => chance.between(30_000, 120_000),
        // With some K this R lies right at the strict test of kind 1 or kind 2.
        2 => {
            let KR = *chance.of(&[121_000_000_000 / 1156, 625_000_000_000 / 6084]);
            KR / chance.between(500, 1000) + chance.between(0, 1)
        }
        // The last few R that any thickness meets, and the first that none does.
        _ => 210_000 + chance.between(-12, 3) * *chance.of(&[1, 1, 1, 20]),
    }
}

/// The modulus and another one, either of them at the bottom: most often so far apart
/// that a plate passes by the one and fails by the other.
fn two_moduli(chance: &mut Chance, M: i128, modulus: i128) -> (i128, i128) {
    let other = match chance.below(6) {
        0 => modulus + chance.between(-1, 1),
        1 | 2 => modulus * chance.between(500, 2000) / 1000,
        3 | 4 => 1_000_000 * M / chance.between(1, 220_000),
        _ => *chance.of(&[1, 2, 99_999_999, 100_000_000]),
    };
    let other = other.clamp(1, 100_000_000);
    *chance.of(&[(modulus, other), (other, modulus)])
}

/// The least depth with which the hull is not too slender.
fn least_depth(header: &Form) -> i128 {
    match greatest_ratio(header.get("H")) {
        Some(ratio) => (header.get("L") + ratio - 1) / ratio,
        None => in_header(header, "depth").lowest(),
    }
}

/// Of a hull as slender as it may be, a little or far less slender.
pub fn depth(chance: &mut Chance, header: &Form) -> i128 {
    let least = least_depth(header);
    match chance.below(3) {
        0 => *chance.of(&[least, least + 1, 999, 1000]),
        _ => chance.between(least, 1000),
    }
}

/// Takes so much off the depth that the hull is too slender: a centimetre too much, or
/// more.
pub fn make_slender(chance: &mut Chance, header: &mut Form) {
    if header.get("H") == 0 {
        header.set("H", *chance.of(&WAVE_HEIGHTS[1..]));
    }
    let too_little = least_depth(header) - 1;
    let any = chance.between(in_header(header, "depth").lowest(), too_little);
    header.set("depth", *chance.of(&[too_little, any]));
}

/// A moment and a modulus from 1,000,000 cm3 up that give R, as a rule after
/// rounding up: with such a modulus one kNm moves R by at most 1.
pub fn aimed_at(chance: &mut Chance, R: i128) -> (i128, i128) {
    let ZB = chance.between(1_000_000, 4_700_000);
    (R * ZB / 1_000_000, ZB)
}

#[cfg(test)]
mod tests {
    use super::*;
    use crate::sheet::read_header;
    use crate::slender::is_too_slender;
    use crate::version::VERSIONS;

    #[test]
    fn a_hull_is_too_slender_only_where_it_is_made_so() {
        let mut chance = Chance::new(6);
        let is_slender =
            |header: &Form| is_too_slender(&read_header(&header.pack()).expect("sound"));
        for version in VERSIONS.iter().cycle().take(2000) {
            let mut header = header(&mut chance, version);
            assert!(!is_slender(&header));
            if version.has_depth() {
                make_slender(&mut chance, &mut header);
                assert!(is_slender(&header));
            }
        }
    }
}
