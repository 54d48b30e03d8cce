//! Full sheets for the trails: hundreds of records on one hull, none of them turned away.
//! The index goes through the versions, wave heights, lengths and stresses of the hull, so
//! that some forty sheets bring up every line that a trail can have.

use super::chance::Chance;
use super::draft::Draft;
use super::whole::rising_ids;
use super::{record, vessel};
use crate::form::{entered, Form};
use crate::limits::{in_record, ID_HIGHEST, T_HIGHEST, WAVE_HEIGHTS};
use crate::pencil::worked_out;
use crate::rules::demands;
use crate::sheet::{Header, Record};
use crate::version::VERSIONS;

/// The fewest records of such a sheet.
pub const FEWEST: i128 = 300;

const KINDS: [i128; 8] = [1, 2, 3, 4, 5, 6, 7, 8];

/// One of the choices, in its turn.
fn in_turn<T>(choices: &[T], turn: u64) -> &T {
    &choices[(turn % choices.len() as u64) as usize]
}

pub fn sheet(seed: u64, index: u64) -> Draft {
    let mut chance = Chance::one_of(seed, index);
    let mut header = hull(&mut chance, index);
    let most = in_turn(VERSIONS, index).n_highest;
    let any = chance.between(FEWEST, most);
    let n = *chance.of(&[FEWEST, most, any, any]);
    header.set("n", n);
    let mut ids = rising_ids(&mut chance, n);
    if chance.one_in(2) {
        (ids[0], ids[n as usize - 1]) = (1, ID_HIGHEST);
    }
    let records = ids.into_iter().zip(index % 8..);
    let records = records.map(|(id, turn)| {
        let kind = *in_turn(&KINDS, turn);
        laden(&mut chance, &header, kind, id)
    });
    let records = records.collect();
    Draft { header, records }
}

/// A hull that is not too slender.
fn hull(chance: &mut Chance, index: u64) -> Form {
    let mut header = vessel::header(chance, in_turn(VERSIONS, index));
    let H = *in_turn(&WAVE_HEIGHTS, index / VERSIONS.len() as u64);
    let (M, ZB) = moment_and_modulus(chance, index % 7);
    let L = length(chance, index);
    header.fill(&[("L", L), ("H", H), ("M", M), ("ZB", ZB)]);
    // Deep enough, at times, that nothing in the gauge meets rule 6.
    if chance.one_in(3) {
        let deep = chance.between(900, 1000);
        header.set("D0", *chance.of(&[1, deep, deep, 1000]));
    }
    if header.has("ZDB") {
        let ZDB = inner_modulus(chance, M, ZB);
        header.set("ZDB", ZDB);
    }
    if header.has("depth") {
        let depth = vessel::depth(chance, &header);
        header.set("depth", depth);
    }
    header
}

/// Under 12000, where rule 4 changes its form, at it, and from there on.
fn length(chance: &mut Chance, index: u64) -> i128 {
    match index % 5 {
        0 => chance.between(4000, 11_999),
        1 => 11_999,
        2 => 12_000,
        3 => chance.between(12_000, 13_500),
        _ => *in_turn(&[4000, 13_500, 6250, 12_500], index / 5),
    }
}

/// R of 0; little, and with a whole root; under where the second form of rule 3 sets in;
/// where it does with some K; above; around 210,000; and far above.
fn moment_and_modulus(chance: &mut Chance, turn: u64) -> (i128, i128) {
    let R = match turn {
        0 => {
            let any = chance.between(1, 100_000_000);
            return (0, *chance.of(&[1, 100_000_000, any]));
        }
        1 if chance.one_in(3) => return (chance.between(1, 1_000_000), 100_000_000),
        1 => return (*chance.of(&[2500, 10_000, 40_000, 90_000]), 1_000_000),
        2 => chance.between(86_600, 102_700),
        3 => {
            let KR = *chance.of(&[121_000_000_000 / 1156, 625_000_000_000 / 6084]);
            KR / chance.between(500, 1000) + chance.between(0, 1)
        }
        4 if chance.one_in(2) => return (*chance.of(&[120_000, 170_000, 200_000]), 1_000_000),
        4 => chance.between(104_700, 209_400),
        5 => 210_000 + chance.of(&[-12, -2, -1, 0, 0, 1]),
        _ => {
            let M = *chance.of(&[1_000_000, 500_000]);
            let near = 1_000_000 * M / chance.between(210_001, 2_000_000);
            return (M, *chance.of(&[1, near, near, near]));
        }
    };
    vessel::aimed_at(chance, R)
}

/// As at the bottom, or for an R of its own: little, much, and so much that nothing in the
/// gauge meets rule 3.
fn inner_modulus(chance: &mut Chance, M: i128, ZB: i128) -> i128 {
    let little = 1_000_000 * M / chance.between(1, 220_000);
    let much = 1_000_000 * M / chance.between(220_000, 5_000_000);
    let modulus = *chance.of(&[ZB, 1, 100_000_000, little, little, much]);
    modulus.clamp(1, 100_000_000)
}

fn laden(chance: &mut Chance, header: &Form, kind: i128, id: i128) -> Form {
    let header = Header::of(header);
    let mut form = record::of_kind(chance, &header, kind);
    form.set("id", id);
    match chance.below(20) {
        0 | 1 => light(&header, &mut form),
        2 | 3 => heavy(chance, &mut form),
        4 | 5 => field_to_an_end(chance, &mut form),
        6 => root_at_a_step(chance, &header, &mut form),
        7 => last_of_the_gauge(chance, &header, &mut form),
        _ => {}
    }
    record::fit(chance, &header, &mut form);
    if chance.one_in(12) {
        scantling_to_an_end(chance, &mut form);
    }
    form
}

/// So little on it that the first of the gauge will do.
fn light(header: &Header, form: &mut Form) {
    match form.get("kind") {
        1 | 2 => form.fill(&[("z", header.D0), ("ballast", 0), ("zL", 0)]),
        3 | 4 => form.fill(&[("ballast", 0), ("zL", 0), ("cargo", 0)]),
        5 => form.set("z", header.D0),
        _ => {}
    }
    if form.has("l") {
        form.fill(&[("S", 100), ("l", 10), ("beta_b", 1), ("beta_s", 1)]);
    }
}

/// So much that at times nothing in the gauge will do.
fn heavy(chance: &mut Chance, form: &mut Form) {
    let kind = form.get("kind");
    if form.has("l") {
        form.fill(&[("S", 4000), ("l", 1000), ("beta_b", 100), ("beta_s", 100)]);
        if kind == 5 {
            form.fill(&[("z", 0), ("eta", 100)]);
        }
        return;
    }
    form.fill(&[("K", 1000), ("z", 0), ("S", 2000)]);
    form.fill(&[("ballast", 1), ("zL", 1200)]);
    if kind == 1 || kind == 3 {
        form.fill(&[("b1", 1000), ("b2", chance.between(10, 100))]);
    }
    if kind >= 3 {
        form.set("cargo", *chance.of(&[0, 127_529, 127_531, 200_000]));
    }
}

/// So many steels and spacings are tried; one in a hundred will do.
const TRIES: usize = 100;

/// Where the whole root of rule 1 or 4 lies on a step of T, but not the root itself: what is
/// worked out does not meet the rule, and one more does.
fn root_at_a_step(chance: &mut Chance, header: &Header, form: &mut Form) {
    for _ in 0..TRIES {
        let (K, S) = (chance.between(500, 1000), chance.between(100, 2000));
        form.fill(&[("K", K), ("S", S)]);
        let record = Record::of(form);
        let [first, ..] = demands(header, &record);
        if worked_out(header, &record)[0].is_some_and(|T| !first.is_met_by(T)) {
            return;
        }
    }
}

/// Where rule 3 of the bottom, or rule 2 of the inner bottom under much cargo, comes to the
/// last of the gauge, which falls just short of it: the widest spacing that is not past it,
/// with one steel or another.
fn last_of_the_gauge(chance: &mut Chance, header: &Header, form: &mut Form) {
    let rule = match form.get("kind") {
        1 | 2 => 2,
        3 | 4 => 1,
        _ => return,
    };
    if rule == 1 {
        form.set("cargo", chance.between(160_000, 200_000));
    }
    if form.get("b1") != 0 {
        form.fill(&[("b1", 1000), ("b2", chance.between(10, 100))]);
    }
    for _ in 0..TRIES {
        form.set("K", chance.between(500, 1000));
        widest(header, form, rule);
        let record = Record::of(form);
        let comes_to_it = worked_out(header, &record)[rule] == Some(T_HIGHEST);
        if comes_to_it && !demands(header, &record)[rule].is_met_by(T_HIGHEST) {
            return;
        }
    }
}

/// Fills in the widest spacing with which the rule comes to a number of the gauge, or the
/// narrowest of all.
fn widest(header: &Header, form: &mut Form, rule: usize) {
    let spacings = in_record(form, "S");
    let (mut narrow, mut too_wide) = (spacings.lowest(), spacings.highest() + 1);
    while too_wide - narrow > 1 {
        let S = (narrow + too_wide) / 2;
        form.set("S", S);
        let comes_to = worked_out(header, &Record::of(form))[rule];
        if comes_to.is_some_and(|T| T <= T_HIGHEST) {
            narrow = S;
        } else {
            too_wide = S;
        }
    }
    form.set("S", narrow);
}

/// A field at an end of its values; a tank's top, which rests on z, goes along.
fn field_to_an_end(chance: &mut Chance, form: &mut Form) {
    let names: Vec<&str> = entered(form.layout).map(|field| field.0).collect();
    let free = |name: &&str| !["kind", "id", "T", "W", "A", "ballast"].contains(name);
    let names: Vec<&str> = names.into_iter().filter(free).collect();
    let name = *chance.of(&names);
    let allowed = in_record(form, name);
    form.set(name, *chance.of(&[allowed.lowest(), allowed.highest()]));
    if form.has("zL") {
        let tops = in_record(form, "zL");
        form.set("zL", form.get("zL").clamp(tops.lowest(), tops.highest()));
    }
}

fn scantling_to_an_end(chance: &mut Chance, form: &mut Form) {
    let names: &[&str] = if form.has("W") {
        &["T", "W", "A"]
    } else {
        &["T"]
    };
    let name = *chance.of(names);
    let allowed = in_record(form, name);
    form.set(name, *chance.of(&[allowed.lowest(), allowed.highest()]));
}

#[cfg(test)]
mod tests {
    use super::*;
    use crate::check::read_all;
    use std::collections::BTreeSet;

    /// Forty of them, as they are explained: both versions, all wave heights and kinds, and
    /// every field of a record at both ends of its values.
    #[test]
    fn full_sheets_are_sound_and_go_to_the_ends() {
        let (mut hulls, mut ends) = (BTreeSet::new(), BTreeSet::new());
        let mut wanted = BTreeSet::new();
        for index in 0..40 {
            let draft = sheet(1, index);
            let (header, records) = read_all(&draft.bytes(), usize::MAX).expect("sound");
            assert!(records.len() >= FEWEST as usize);
            hulls.insert((header.version().number, header.H, header.L < 12_000));
            for form in &draft.records {
                for (name, _) in form.layout {
                    let allowed = in_record(form, name);
                    // The ends of the ids come up on whatever kind they fall.
                    let kind = if *name == "id" { 0 } else { form.get("kind") };
                    let case = |value| (kind, *name, value);
                    for end in [allowed.lowest(), allowed.highest()] {
                        // A tank's top is no lower than z, wherever that is.
                        if *name != "zL" && *name != "kind" {
                            wanted.insert(case(end));
                        }
                        if form.get(name) == end {
                            ends.insert(case(end));
                        }
                    }
                }
            }
        }
        assert_eq!(hulls.len(), 2 * 3 * 2);
        let missing: Vec<_> = wanted.difference(&ends).collect();
        assert!(missing.is_empty(), "{missing:?}");
    }

    #[test]
    fn seed_and_index_decide() {
        assert_eq!(sheet(1, 5).bytes(), sheet(1, 5).bytes());
        assert_ne!(sheet(1, 5).bytes(), sheet(2, 5).bytes());
        assert_ne!(sheet(1, 5).bytes(), sheet(1, 47).bytes());
    }
}
