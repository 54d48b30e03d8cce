//! Records that no check turns away, with T, W and A at, one below and one
//! above what a rule needs.

use super::chance::Chance;
use super::tie::even_loads;
use crate::form::{Form, MEMBER, PLATE};
use crate::loads::{hull_stress, line_load, member_pressure};
use crate::rules::{demands, Demand};
use crate::sheet::{Header, Record};

pub fn record(chance: &mut Chance, header: &Form, id: i128) -> Form {
    let header = Header::of(header);
    let kind = chance.between(1, 8);
    let mut form = of_kind(chance, &header, kind);
    form.set("id", id);
    fit(chance, &header, &mut form);
    form
}

/// One of this kind; its T, W and A, and its id, are still to be filled in.
pub fn of_kind(chance: &mut Chance, header: &Header, kind: i128) -> Form {
    if kind <= 4 {
        plate(chance, header, kind)
    } else {
        member(chance, header, kind)
    }
}

/// Fills in T, W and A.
pub fn fit(chance: &mut Chance, header: &Header, form: &mut Form) {
    // What the rules need does not rest on the T, W and A entered.
    let demands = demands(header, &Record::of(form));
    if form.get("kind") <= 4 {
        let T = thickness(chance, &demands);
        form.set("T", T);
    } else {
        let [T, W, A] = scantlings(chance, &demands);
        form.set("T", T);
        form.set("W", W);
        form.set("A", A);
    }
}

/// The least number of the gauge that meets a rule, as `Demand::least` has it. Here
/// by halving, to save time: what is enough stays enough further up the gauge.
fn turn(demand: &Demand) -> Option<i128> {
    let (mut below, mut enough) = (0, demand.gauge + 1);
    while enough - below > 1 {
        let middle = (below + enough) / 2;
        if demand.is_met_by(middle) {
            enough = middle;
        } else {
            below = middle;
        }
    }
    (enough <= demand.gauge).then_some(enough)
}

/// One number of the gauge at, just under or just over `least`.
fn near(chance: &mut Chance, least: i128, steps: &[i128], gauge: i128) -> i128 {
    (least + chance.of(steps)).clamp(1, gauge)
}

/// A plate has one T for its three rules. It stands mostly at the one that
/// needs the most; at another one the earlier or the later rules get their say.
fn thickness(chance: &mut Chance, demands: &[Demand; 3]) -> i128 {
    let gauge = demands[0].gauge;
    let least: Vec<Option<i128>> = demands.iter().map(turn).collect();
    let chosen = if chance.one_in(4) {
        *chance.of(&least)
    } else {
        let most = least.iter().max_by_key(|need| need.unwrap_or(gauge + 1));
        *most.expect("three rules")
    };
    match chosen {
        Some(T) => near(chance, T, &[-1, -1, 0, 0, 1], gauge),
        None => {
            // Nothing will do: the other rules at their least, or the thickest plate.
            let others = least.iter().flatten().max().copied().unwrap_or(1);
            let thick_enough = *chance.of(&[others, gauge]);
            near(chance, thick_enough, &[-1, 0, 0, 0], gauge)
        }
    }
}

/// A member has a number of its own for each rule. One rule is picked to be
/// tried; those before it are met, so that it is the one that gets named.
fn scantlings(chance: &mut Chance, demands: &[Demand; 3]) -> [i128; 3] {
    let tried = chance.below(4);
    let mut numbers = [0; 3];
    for (index, demand) in demands.iter().enumerate() {
        let steps: &[i128] = match index {
            _ if index < tried => &[0, 0, 1],
            _ if index == tried => &[-1, -1, 0, 1],
            _ => &[-1, 0, 1],
        };
        numbers[index] = match turn(demand) {
            Some(least) => near(chance, least, steps, demand.gauge),
            None => *chance.of(&[1, demand.gauge - 1, demand.gauge]),
        };
    }
    numbers
}

fn material(chance: &mut Chance) -> i128 {
    match chance.below(4) {
        0 => *chance.of(&[500, 501, 999]),
        1 => chance.between(500, 1000),
        _ => 1000,
    }
}

fn height(chance: &mut Chance, header: &Header) -> i128 {
    let D0 = header.D0;
    match chance.below(4) {
        0 => 0,
        1 => (D0 + chance.of(&[-1, 0, 0, 1])).min(1000),
        2 => *chance.of(&[D0 / 2, 999, 1000]),
        _ => chance.between(0, 1000),
    }
}

fn plate_spacing(chance: &mut Chance) -> i128 {
    match chance.below(5) {
        0 => *chance.of(&[100, 101, 1999, 2000]),
        1 => 100 * chance.between(1, 20),
        2 => chance.between(100, 250),
        _ => chance.between(100, 2000),
    }
}

fn plate(chance: &mut Chance, header: &Header, kind: i128) -> Form {
    let mut form = Form::filled(PLATE, &[("kind", kind)]);
    let K = plate_material(chance, header, kind);
    form.set("K", K);
    form.set("z", height(chance, header));
    form.set("S", plate_spacing(chance));
    if kind == 1 || kind == 3 {
        let (b1, b2) = panel(chance);
        form.set("b1", b1);
        form.set("b2", b2);
    }
    if chance.one_in(2) {
        let z = form.get("z");
        let between = chance.between(z, 1200);
        form.set("ballast", 1);
        form.set("zL", *chance.of(&[z, z + 1, 1200, between, between]));
    }
    if kind >= 3 {
        form.set("cargo", cargo(chance, kind));
    }
    match chance.below(5) {
        0 => round_plate(chance, &mut form),
        1 if kind == 3 => heavy_cargo(chance, &mut form),
        2 => even_loads(chance, header, &mut form),
        3 if header.ZDB() != header.ZB => bare_plate(chance, &mut form),
        _ => {}
    }
    form
}

/// Without cargo and ballast, and with K2 near 1000 where there is one, rule 3 asks for
/// the most, so that the modulus shows.
fn bare_plate(chance: &mut Chance, form: &mut Form) {
    form.fill(&[("ballast", 0), ("zL", 0), ("cargo", 0)]);
    if form.get("b1") != 0 {
        let (b1, b2) = (chance.between(500, 1000), chance.between(10, 100));
        form.fill(&[("b1", b1), ("b2", b2)]);
    }
}

/// For the bottom, at times the K on one side or the other of the strict test
/// that brings in the second form of rule 3.
fn plate_material(chance: &mut Chance, header: &Header, kind: i128) -> i128 {
    let R = hull_stress(header, kind).max(1);
    let turn = match kind {
        1 => 121_000_000_000 / (1156 * R),
        2 => 625_000_000_000 / (6084 * R),
        _ => 0,
    };
    if (500..1000).contains(&turn) && !chance.one_in(3) {
        turn + chance.between(0, 1)
    } else {
        material(chance)
    }
}

/// K2 at its cap of 26,000 (b2 = 5 b1) and around it, at a whole 2000, near
/// 1000, and anywhere.
pub fn panel(chance: &mut Chance) -> (i128, i128) {
    match chance.below(5) {
        0 => {
            let b1 = chance.between(10, 199);
            (b1, 5 * b1 + chance.between(-1, 1))
        }
        1 => {
            let b = chance.between(10, 1000);
            (b, b)
        }
        2 => (chance.between(500, 1000), chance.between(10, 100)),
        3 => (*chance.of(&[10, 11, 1000]), *chance.of(&[10, 999, 1000])),
        _ => (chance.between(10, 1000), chance.between(10, 1000)),
    }
}

/// Cargo pressures over the range; some of them, with K = 1000 and a round
/// spacing, bring rule 2 to equality (T = 2mS/25 for kind 3, 3mS/250 for kind 4).
fn cargo(chance: &mut Chance, kind: i128) -> i128 {
    match chance.below(4) {
        0 => *chance.of(&[0, 1, 199_999, 200_000]),
        1 if kind == 3 => {
            let m = chance.between(1, 28);
            250 * m * m
        }
        1 => {
            let m = chance.between(1, 141);
            10 * m * m
        }
        _ => chance.between(0, 200_000),
    }
}

/// Round numbers, and K2 = 2000 where there is one: on a vessel whose R or
/// 210,000 - R has a whole root, rule 3 often comes to equality.
fn round_plate(chance: &mut Chance, form: &mut Form) {
    let any = chance.between(1, 6);
    form.set("S", *chance.of(&[300 * any, 200 * any, 1000]));
    form.set("K", 1000);
    if form.get("b1") != 0 {
        let b = chance.between(10, 1000);
        form.set("b1", b);
        form.set("b2", b);
    }
}

/// Only kind 3 can fail rule 2 with nothing in the gauge: wide spacing and
/// more than 156,250 Pa, where T = 4000 is met exactly.
fn heavy_cargo(chance: &mut Chance, form: &mut Form) {
    form.set("S", *chance.of(&[1990, 1999, 2000, 2000]));
    form.set("K", *chance.of(&[990, 999, 1000, 1000]));
    let above = chance.between(156_000, 200_000);
    form.set(
        "cargo",
        *chance.of(&[156_249, 156_250, 156_251, above, above]),
    );
}

fn member(chance: &mut Chance, header: &Header, kind: i128) -> Form {
    let mut form = Form::filled(MEMBER, &[("kind", kind), ("eta", 100)]);
    // Any T, W and A, for the form to be whole; the right ones come later.
    for name in ["T", "W", "A"] {
        form.set(name, 1);
    }
    let K = material(chance);
    form.set("K", K);
    if kind == 5 {
        form.set("z", height(chance, header));
    }
    form.set("S", member_spacing(chance));
    form.set("l", span(chance));
    form.set("beta_b", end_coefficient(chance));
    form.set("beta_s", end_coefficient(chance));
    if kind == 5 || kind == 8 {
        form.set("eta", end_coefficient(chance));
        form.set("sigma1", hull_share(chance, kind));
    }
    match chance.below(6) {
        0 | 1 => great_shear(chance, &mut form),
        2 if kind >= 6 && header.two_runs => half_that_shows(chance, header, &mut form),
        3 => round_member(chance, &mut form),
        _ => {}
    }
    form
}

fn member_spacing(chance: &mut Chance) -> i128 {
    match chance.below(4) {
        0 => *chance.of(&[100, 101, 3999, 4000]),
        1 => 100 * chance.between(1, 40),
        2 => chance.between(100, 900),
        _ => chance.between(100, 4000),
    }
}

fn span(chance: &mut Chance) -> i128 {
    match chance.below(4) {
        0 => *chance.of(&[10, 11, 999, 1000]),
        1 => 50 * chance.between(1, 20),
        _ => chance.between(10, 1000),
    }
}

fn end_coefficient(chance: &mut Chance) -> i128 {
    match chance.below(3) {
        0 => *chance.of(&[1, 2, 99, 100]),
        1 => 100,
        _ => chance.between(1, 100),
    }
}

/// Hull girder stress in the member: around 214 (kind 5) and 197 (kind 8)
/// what is left for rule 5 runs out.
fn hull_share(chance: &mut Chance, kind: i128) -> i128 {
    let limit = if kind == 5 { 214 } else { 197 };
    match chance.below(6) {
        0 => limit + chance.between(-3, 1),
        1 => *chance.of(&[0, 1, 254, 255]),
        2 => chance.between(0, 255),
        _ => chance.between(0, 150),
    }
}

/// Little bending and much shear, so that rule 5 is met and rule 6 gets its say;
/// in a deep vessel with one run nothing in the gauge meets it.
fn great_shear(chance: &mut Chance, form: &mut Form) {
    form.set("S", chance.between(3800, 4000));
    form.set("l", chance.between(950, 1000));
    form.set("beta_b", chance.between(1, 20));
    form.set("beta_s", *chance.of(&[98, 99, 100, 100]));
    if form.get("kind") == 5 || form.get("kind") == 8 {
        form.set("eta", *chance.of(&[99, 100, 100]));
        form.set("sigma1", chance.between(0, 100));
    }
}

/// A spacing at which one thousandth of a pascal less would give another q: the
/// rounding of 56407.5 D0 then shows, if one N/m moves W (small what is left of
/// the stress, great l).
fn half_that_shows(chance: &mut Chance, header: &Header, form: &mut Form) {
    let Record::Member(data) = Record::of(form) else {
        return;
    };
    let P = member_pressure(header, &data).P;
    let first = chance.between(100, 4000);
    let shows = |S: &i128| line_load(P, *S) != line_load(P - 1, *S);
    if let Some(S) = (first..=4000).chain(100..first).find(shows) {
        form.set("S", S);
        form.set("beta_b", 100);
        if form.get("kind") == 8 {
            form.set("sigma1", chance.between(150, 196));
        } else {
            form.set("l", chance.between(800, 1000));
        }
    }
}

/// Round numbers off a drawing board, with which rules 5 and 6 often come to
/// equality (833 is 7 x 119, hence 214 - 95 for kind 5).
fn round_member(chance: &mut Chance, form: &mut Form) {
    form.set("S", *chance.of(&[500, 1000, 2000, 2500, 4000]));
    form.set("l", *chance.of(&[100, 200, 500, 1000]));
    form.set("beta_b", *chance.of(&[50, 100]));
    form.set("beta_s", *chance.of(&[50, 100]));
    match form.get("kind") {
        5 => {
            form.set("eta", 100);
            form.set("sigma1", 95);
        }
        8 => {
            form.set("eta", 100);
            form.set("sigma1", 97);
        }
        _ => {}
    }
}

#[cfg(test)]
mod tests {
    use super::*;
    use crate::make::vessel;
    use crate::version::VERSIONS;

    #[test]
    fn halving_finds_what_the_walk_finds() {
        let mut chance = Chance::new(5);
        for version in VERSIONS.iter().cycle().take(60) {
            let header = vessel::header(&mut chance, version);
            let form = record(&mut chance, &header, 1);
            for demand in demands(&Header::of(&header), &Record::of(&form)) {
                assert_eq!(turn(&demand), demand.least());
            }
        }
    }
}
