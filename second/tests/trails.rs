//! The pencil trail: the example whole, the document's cases by their numbers, each load
//! and each form by hand, and what full sheets bring up.

#![allow(non_snake_case)]

mod common;

use common::{member, plate, required, sheet, vessel_v, vessel_v2, with};
use second::check::{judge, read_all};
use second::form::Form;
use second::make::full_sheet;
use second::pencil::{explained, trail, worked_out};
use second::sheet::{Header, Record};
use second::tally_trails::{all, TrailTally, ENOUGH};

/// What stands once before the trails, with the empty line behind it.
const HEAD: &str = "\
letters here, and in the class rules (INTLREG Part 3, 2021):
  L, l, z, b1, b2  the same, there in m, here in cm
  D0               T, the draught, there in m, here in cm
  H                the wave height, there in m, here in cm; n = 0.85H
  zL               ZL, the top of the tank, there in m, here in cm
  S                s or S, the spacing, there in m, here in mm
  T                t, a thickness, there in mm, here in hundredths of a mm
  W                w, a section modulus, there in cm³, here in tenths of a cm³
  A                Ash, a shear area, there in cm², here in hundredths of a cm²
  P                p, a pressure, there in kN/m², here in mPa
  q                p·s, a line load, there in kN/m, here in N/m
  K, K2            1000 times k and k2
  βb, βs, η        the same, here in hundredths
  σ1               the same, in N/mm²
  M, ZB, ZDB       MH in kNm, ZB and ZDB in cm³
  R                1000000 times M/ZB, or M/ZDB
  X                what a thickness has over a fixed part; its unit is beside it
the designer enters k, βb, βs, η, σ1, M, ZB and ZDB; all else is the rules' own.
of two equal loads that of the lower source decides.

";

const EXAMPLE: &str = "\
member 7: kind 2, bottom plate, longitudinal framing
loads on it, in mPa:
  source 0, sea at or below the draught: Ch 2 Sec 3 [3.7.1] a
    pE = 9.81(T − z + 0.6n), n = 0.85H
    98100(D0 − z) + 50031H; 50031 is 9.81·0.6·0.85 in mPa for each cm
    D0 250 cm, z 0 cm, H 60 cm: 24525000 + 3001860 = 27526860
  decides: source 0, P 27526860 mPa
rule 1: Ch 4 Table 2.6.1, t1 = 1.1 + 0.03·L·√k + 3.6·s
  X = 100T − 11000 − 36S ≥ 0, 1000X² ≥ 9L²K; X in 1/10000 mm
  L 8000 cm, K 1000, S 500 mm
  X² ≥ 9L²K/1000 = 576000000, remainder 0
  rounded up: X² ≥ 576000000; root, rounded down: 24000
  T ≥ (24000 + 11000 + 36S)/100, 36S = 18000: 530, remainder 0
  rounded up: T 530
  tested: T 530, X 24000: X² = 576000000 ≥ 576000000, met
  one less: T 529, X 23900: X² = 571210000 < 576000000, not met
  least 530 (5.30 mm), has 600 (6.00 mm): met, margin 70
rule 2: Ch 4 Table 2.6.1, t2 = 1.2·s·√(k·p)
  625000000000T² ≥ 9S²KP
  S 500 mm, K 1000, P 27526860 mPa
  T² ≥ 9S²KP/625000000000 = 99096, remainder 435000000000
  rounded up: T² ≥ 99097; root, rounded down: 314
  tested: T 314: T² = 98596 < 99097, not met
  one more: T 315: T² = 99225 ≥ 99097, met
  least 315 (3.15 mm), has 600 (6.00 mm): met, margin 285
rule 3: Ch 4 Table 2.6.1, t3 = 39·s·√(MH/ZB);
  where t3/s > 12.5/√k: t3 = 4.1·√k·s/√(0.21 − MH/ZB)
  M 20000 kNm, ZB 200000 cm³
  R = 1000000M/ZB = 100000, remainder 0; rounded up: 100000
  6084KR = 608400000000 ≤ 625000000000, K 1000: the first form
  100000000T² ≥ 1521S²R; S 500 mm, R 100000
  T² ≥ 1521S²R/100000000 = 380250, remainder 0
  rounded up: T² ≥ 380250; root, rounded down: 616
  tested: T 616: T² = 379456 < 380250, not met
  one more: T 617: T² = 380689 ≥ 380250, met
  least 617 (6.17 mm), has 600 (6.00 mm): fails, short by 17
verdict: fails rule 3, required 617 (6.17 mm)
";

fn of(header: &Form, record: &Form) -> String {
    trail(&Header::of(header), &Record::of(record))
}

/// Asserts that the trail has these lines, one behind the other.
fn has(header: &Form, record: &Form, lines: &str) {
    let trail = of(header, record);
    let lines = format!("\n{lines}\n");
    assert!(trail.contains(&lines), "{lines}is not in\n{trail}");
}

/// The least number of each rule as the three result lines say it, and the verdict.
fn results(header: &Form, record: &Form) -> Vec<String> {
    let trail = of(header, record);
    let lines = trail.lines().filter_map(|line| {
        let result = line.strip_prefix("  least ");
        let least = result.map(|result| result.split(", has ").next().unwrap_or(result));
        least.or(line.strip_prefix("verdict: "))
    });
    lines.map(str::to_string).collect()
}

#[test]
fn the_example() {
    let bottom = with(&plate(2), &[("id", 7), ("T", 600)]);
    assert_eq!(of(&vessel_v(), &bottom), EXAMPLE);
}

#[test]
fn trails_of_a_sheet() {
    let bottom = with(&plate(2), &[("id", 7), ("T", 600)]);
    let longitudinal = with(&member(5), &[("id", 12), ("W", 560)]);
    let both = sheet(&vessel_v(), &[bottom, longitudinal.clone()]);
    let other = of(&vessel_v(), &longitudinal);
    assert_eq!(explained(&both, None), format!("{HEAD}{EXAMPLE}\n{other}"));
    assert_eq!(explained(&both, Some(7)), format!("{HEAD}{EXAMPLE}"));
    assert_eq!(explained(&both, Some(12)), format!("{HEAD}{other}"));
    for id in [0, 8, 1001, -7] {
        assert_eq!(explained(&both, Some(id)), "");
    }
    assert_eq!(explained(&sheet(&vessel_v(), &[]), None), "");
    assert_eq!(explained(&both[..43], None), "refused 4 0\n");
    assert_eq!(explained(&both[..43], Some(7)), "refused 4 0\n");
}

#[test]
fn cases_4_5_and_9() {
    let v = vessel_v();
    let thick = [("T", 4000)];
    for (record, least) in [
        (
            plate(2),
            ["530 (5.30 mm)", "315 (3.15 mm)", "617 (6.17 mm)"],
        ),
        (
            plate(1),
            ["605 (6.05 mm)", "420 (4.20 mm)", "1034 (10.34 mm)"],
        ),
        (
            with(&plate(4), &[("cargo", 30_000)]),
            ["458 (4.58 mm)", "329 (3.29 mm)", "617 (6.17 mm)"],
        ),
    ] {
        let fails = format!("fails rule 1, required {}", least[0]);
        assert_eq!(results(&v, &record)[..3], least);
        assert_eq!(results(&v, &record)[3], fails);
        assert_eq!(results(&v, &with(&record, &thick))[3], "passes");
    }
}

/// K2 1040 with no remainder, R 100,000.
#[test]
fn case_5_by_its_numbers() {
    let lines = "  M 20000 kNm, ZB 200000 cm³
  R = 1000000M/ZB = 100000, remainder 0; rounded up: 100000
  b1 250 cm, b2 50 cm
  K2 = 1000(b1² + b2²)/b1² = 1040, remainder 0; rounded down: 1040
  1156KR = 115600000000 ≤ 121000000000, K 1000: the first form
  25T²K2² ≥ 1156S²R; S 500 mm, K2 1040, R 100000
  T² ≥ 1156S²R/(25K2²) = 1068786, remainder 26560000
  rounded up: T² ≥ 1068787; root, rounded down: 1033
  tested: T 1033: T² = 1067089 < 1068787, not met
  one more: T 1034: T² = 1069156 ≥ 1068787, met
  least 1034 (10.34 mm), has 1034 (10.34 mm): met, margin 0
verdict: passes";
    has(&vessel_v(), &with(&plate(1), &[("T", 1034)]), lines);
}

#[test]
fn case_9_by_its_numbers() {
    let inner = with(&plate(4), &[("cargo", 30_000)]);
    let lines = "\
loads on it, in mPa:
  source 3, cargo: pC as entered, Ch 4 Table 2.6.1
    30000 Pa, times 1000: 30000000
  decides: source 3, P 30000000 mPa";
    has(&vessel_v(), &inner, lines);
    let lines = "\
rule 3: Ch 4 Table 2.6.1, t3 = 39·s·√(MH/ZB)
  on the inner bottom MH/ZDB is taken, and there is no second form
  ZB stands for ZDB, which a sheet of version 1 does not have
  M 20000 kNm, ZB 200000 cm³
  R = 1000000M/ZB = 100000, remainder 0; rounded up: 100000
  100000000T² ≥ 1521S²R; S 500 mm, R 100000";
    has(&vessel_v(), &inner, lines);
    let lines = "  on the inner bottom MH/ZDB is taken, and there is no second form
  M 20000 kNm, ZDB 800000 cm³
  R = 1000000M/ZDB = 25000, remainder 0; rounded up: 25000
  100000000T² ≥ 1521S²R; S 500 mm, R 25000";
    has(&vessel_v2(), &inner, lines);
}

#[test]
fn cases_10_and_11() {
    let v = vessel_v();
    let least = ["420 (4.20 mm)", "567 (56.7 cm³)", "168 (1.68 cm²)"];
    assert_eq!(results(&v, &member(5))[..3], least);
    let floor = with(&member(6), &[("l", 500), ("T", 508), ("W", 1996)]);
    let least = ["508 (5.08 mm)", "1996 (199.6 cm³)", "310 (3.10 cm²)"];
    assert_eq!(results(&v, &floor)[..3], least);
    assert_eq!(
        results(&v, &floor)[3],
        "fails rule 6, required 310 (3.10 cm²)"
    );
}

/// q 13,764, of 27,526,860 x 500 / 1,000,000 = 13,763.43.
#[test]
fn case_10_by_its_numbers() {
    let lines = "\
rule 5: Ch 4 Table 2.8.1, w = 83.3/(214 − σ1)·βb·η·pE·s·l²
  P 27526860 mPa, S 500 mm
  q = PS/1000000 = 13763, remainder 430000; rounded up: 13764 N/m
  10¹¹W(214 − σ1) ≥ 833βbηql²; βb 100, η 90, l 300 cm, σ1 50
  W ≥ 833βbηql²/(10¹¹(214 − σ1)) = 566, remainder 4583720000000
  rounded up: W ≥ 567
  least 567 (56.7 cm³), has 1 (0.1 cm³): fails, short by 566
rule 6: Ch 4 Table 2.8.1, Ash = 0.045·βs·η·pE·s·l
  2·10⁹A ≥ 9βsηql; βs 100, η 90, q 13764 N/m, l 300 cm
  A ≥ 9βsηql/(2·10⁹) = 167, remainder 465200000
  rounded up: A ≥ 168";
    has(&vessel_v(), &member(5), lines);
    // 25 x 100 x 90 x 13,764 x 300² / (2 x 10⁹ x 147) = 948.0..., 7 x 100 x 13,764 x 300 / 12,500,000 = 231.2...
    let lines = "  2·10⁹W(197 − σ1) ≥ 25βbηql²; βb 100, η 90, l 300 cm, σ1 50
  W ≥ 25βbηql²/(2·10⁹(197 − σ1)) = 948, remainder 9000000000";
    has(&vessel_v(), &member(8), lines);
    let lines = "  12500000A ≥ 7βsql; βs 100, q 13764 N/m, l 300 cm
  A ≥ 7βsql/12500000 = 231, remainder 2940000
  rounded up: A ≥ 232";
    has(&vessel_v(), &member(8), lines);
}

#[test]
fn case_11_by_its_numbers() {
    let floor = with(&member(6), &[("l", 500), ("T", 508)]);
    let lines = "\
rule 4: Ch 4 Sec 2 [2.7.1], t = 3.8 + 0.016·L·√k
  X = 100T − 38000 ≥ 0, 3125X² ≥ 8L²K; X in 1/10000 mm
  L 8000 cm, K 1000
  X² ≥ 8L²K/3125 = 163840000, remainder 0
  rounded up: X² ≥ 163840000; root, rounded down: 12800
  T ≥ (12800 + 38000)/100: 508, remainder 0
  rounded up: T 508
  tested: T 508, X 12800: X² = 163840000 ≥ 163840000, met
  one less: T 507, X 12700: X² = 161290000 < 163840000, not met
  least 508 (5.08 mm), has 508 (5.08 mm): met, margin 0
rule 5: Ch 4 Table 2.8.1, w = 0.58·βb·pγE·s·l²
  P 27526860 mPa, S 500 mm
  q = PS/1000000 = 13763, remainder 430000; rounded up: 13764 N/m
  5·10⁹W ≥ 29βbql²; βb 100, l 500 cm
  W ≥ 29βbql²/(5·10⁹) = 1995, remainder 3900000000
  rounded up: W ≥ 1996";
    has(&vessel_v(), &floor, lines);
    let lines = "  2·10⁷A ≥ 9βsql; βs 100, q 13764 N/m, l 500 cm
  A ≥ 9βsql/(2·10⁷) = 309, remainder 13800000
  rounded up: A ≥ 310";
    has(&vessel_v(), &floor, lines);
}

#[test]
fn case_12() {
    let wide = with(&member(5), &[("S", 600), ("T", 481)]);
    let short = with(&vessel_v(), &[("L", 11_999)]);
    // 11,999² x 1000 / 6250 = 23,036,160.16
    let lines = "\
rule 4: Ch 4 Sec 2 [2.7.1], t = 1.63 + 0.004·L·√k + 4.5·s, L < 120 m
  X = 100T − 16300 − 45S ≥ 0, 6250X² ≥ L²K; X in 1/10000 mm
  L 11999 cm, under 12000; K 1000, S 600 mm
  X² ≥ L²K/6250 = 23036160, remainder 1000
  rounded up: X² ≥ 23036161; root, rounded down: 4799
  T ≥ (4799 + 16300 + 45S)/100, 45S = 27000: 480, remainder 99
  rounded up: T 481
  tested: T 481, X 4800: X² = 23040000 ≥ 23036161, met
  one less: T 480, X 4700: X² = 22090000 < 23036161, not met
  least 481 (4.81 mm), has 481 (4.81 mm): met, margin 0";
    has(&short, &wide, lines);
    let long = with(&vessel_v(), &[("L", 12_000)]);
    let lines = "\
rule 4: Ch 4 Sec 2 [2.7.1], t = 3.9·√k + s, L ≥ 120 m
  X = 10T − S ≥ 0, X² ≥ 15210K; X in 1/1000 mm
  L 12000 cm, not under 12000; K 1000, S 600 mm
  X² ≥ 15210K = 15210000; root, rounded down: 3900
  T ≥ (3900 + S)/10: 450, remainder 0
  rounded up: T 450
  tested: T 450, X 3900: X² = 15210000 ≥ 15210000, met
  one less: T 449, X 3890: X² = 15132100 < 15210000, not met
  least 450 (4.50 mm), has 481 (4.81 mm): met, margin 31";
    has(&long, &wide, lines);
}

/// Webs of floors on V: n is 163,840 K. K 1000 gives 12,800², K 712 116,654,080, just above
/// 10,800², and K 713 one whose root is 10,808.
#[test]
fn a_root_on_a_step_of_the_gauge() {
    let web = |K, lines| has(&vessel_v(), &with(&member(6), &[("K", K)]), lines);
    let lines = "  T ≥ (10800 + 38000)/100: 488, remainder 0
  rounded up: T 488
  tested: T 488, X 10800: X² = 116640000 < 116654080, not met
  one more: T 489, X 10900: X² = 118810000 ≥ 116654080, met";
    web(712, lines);
    let lines = "  T ≥ (10808 + 38000)/100: 488, remainder 8
  rounded up: T 489
  tested: T 489, X 10900: X² = 118810000 ≥ 116817920, met
  one less: T 488, X 10800: X² = 116640000 < 116817920, not met";
    web(713, lines);
}

#[test]
fn sea_above_the_draught() {
    let above = with(&plate(1), &[("z", 251)]);
    let lines = "  source 1, sea above the draught: Ch 2 Sec 3 [3.7.1] b, Table 3.7.1
    pE = max(5.9n; 3) + pWD, n = 0.85H
    max(50150H, 3000000) + pWD; 50150 is 5.9·0.85 in mPa for each cm
    z 251 cm is above D0 250 cm; H 60 cm: max(3009000, 3000000) = 3009000
    pWD = 0.25 in kN/m², as H is not 120: 3009000 + 250000 = 3259000
  decides: source 1, P 3259000 mPa";
    has(&vessel_v(), &above, lines);
    let lines = "    z 251 cm is above D0 250 cm; H 0 cm: max(0, 3000000) = 3000000
    pWD = 0.25 in kN/m², as H is not 120: 3000000 + 250000 = 3250000
  decides: source 1, P 3250000 mPa";
    has(&with(&vessel_v(), &[("H", 0)]), &above, lines);
    let lines = "    z 251 cm is above D0 250 cm; H 120 cm: max(6018000, 3000000) = 6018000
    pWD = 0.4n, 3400H, as H is 120: 6018000 + 408000 = 6426000
  decides: source 1, P 6426000 mPa";
    has(&with(&vessel_v(), &[("H", 120)]), &above, lines);
}

/// On the bottom less the relief, which is 0 at D0 204 in waves of 60 cm and not taken
/// below that.
#[test]
fn ballast() {
    let tank = [("z", 10), ("ballast", 1), ("zL", 400)];
    let v = |D0| with(&vessel_v(), &[("D0", D0)]);
    let lines = "  source 2, ballast less the least sea: Ch 2 Sec 3 [3.10.2] b, Ch 4 Table 2.6.1
    pB − pM, pB = 9.81(ZL − z + 1), pM = 9.81(0.15T − 0.6n) ≥ 0, n = 0.85H
    pB is 98100(zL − z + 100): zL 400 cm, z 10 cm: 48069000
    pM is 14715D0 − 50031H: D0 250 cm, H 60 cm: 3678750 − 3001860 = 676890
    pB − pM = 48069000 − 676890 = 47392110
  decides: source 2, P 47392110 mPa";
    has(&v(250), &with(&plate(2), &tank), lines);
    let lines = "    pM is 14715D0 − 50031H: D0 204 cm, H 60 cm: 3001860 − 3001860 = 0
    pB − pM = 48069000 − 0 = 48069000";
    has(&v(204), &with(&plate(1), &tank), lines);
    let lines = "    pM is 14715D0 − 50031H: D0 203 cm, H 60 cm: 2987145 < 3001860, so 0
    pB − pM = 48069000 − 0 = 48069000";
    has(&v(203), &with(&plate(1), &tank), lines);
    let lines = "  source 3, cargo: pC as entered, Ch 4 Table 2.6.1
    0 Pa, times 1000: 0
  source 2, ballast: Ch 2 Sec 3 [3.10.2] b, pB = 9.81(ZL − z + 1)
    98100(zL − z + 100): zL 400 cm, z 10 cm: 48069000
  decides: source 2, P 48069000 mPa";
    has(&v(250), &with(&plate(3), &tank), lines);
}

/// In still water, 10 m deep, a tank that ends at the plate weighs less than the relief.
/// Of two loads of 0 the sea's is named, and of a tank of 30 kPa that of the cargo is not.
#[test]
fn ballast_all_relieved() {
    let v = with(&vessel_v(), &[("D0", 1000), ("H", 0)]);
    let shallow = [("z", 1000), ("ballast", 1), ("zL", 1000)];
    let lines = "    pM is 14715D0 − 50031H: D0 1000 cm, H 0 cm: 14715000 − 0 = 14715000
    pB − pM: 9810000 < 14715000, so 0
  decides: source 0, P 0 mPa";
    has(&v, &with(&plate(1), &shallow), lines);
    let full = [("z", 0), ("ballast", 1), ("zL", 0), ("cargo", 9810)];
    let lines = "  decides: source 2, P 9810000 mPa";
    has(&v, &with(&plate(4), &full), lines);
}

#[test]
fn runs() {
    let v = vessel_v();
    let lines = "  source 0, sea on the whole draught: Ch 4 Table 2.8.1
    pγE = 9.81(γT + 0.6n), γ = 1 in one run, n = 0.85H
    98100D0 + 50031H; 50031 is 9.81·0.6·0.85 in mPa for each cm
    D0 250 cm, H 60 cm: 24525000 + 3001860 = 27526860
  decides: source 0, P 27526860 mPa";
    has(&v, &member(7), lines);
    // 56407.5 x 251 = 14,158,282.5
    let two_runs = with(&v, &[("runs", 1), ("D0", 251)]);
    let lines = "    pγE = 9.81(γT + 0.6n), γ = 0.575 in two runs, n = 0.85H
    56407.5D0 + 50031H; 50031 is 9.81·0.6·0.85 in mPa for each cm
    56407.5D0 is 564075·251/10 = 14158282, remainder 5
    rounded up: 14158283; H 60 cm: 14158283 + 3001860 = 17160143
  decides: source 0, P 17160143 mPa";
    has(&two_runs, &member(8), lines);
}

#[test]
fn without_load_the_gauge_begins_there() {
    let v = with(&vessel_v(), &[("M", 0)]);
    let lines = "  39062500000T² ≥ S²KP
  S 500 mm, K 1000, P 0 mPa
  T² ≥ S²KP/39062500000 = 0, remainder 0
  rounded up: T² ≥ 0; root, rounded down: 0
  T 1 meets the rule, and the gauge begins there
  least 1 (0.01 mm), has 1 (0.01 mm): met, margin 0";
    has(&v, &plate(3), lines);
    let still = with(&vessel_v(), &[("H", 0)]);
    let lines = "  W ≥ 833βbηql²/(10¹¹(214 − σ1)) = 0, remainder 0
  rounded up: W ≥ 0
  W 1 meets the rule, and the gauge begins there
  least 1 (0.1 cm³), has 1 (0.1 cm³): met, margin 0";
    has(&still, &with(&member(5), &[("z", 250)]), lines);
}

/// The greatest floor, 10 m deep: W by 29 x 100 x 392,400 x 1000² / 5 x 10⁹.
#[test]
fn past_the_gauge() {
    let deep = with(&vessel_v(), &[("D0", 1000), ("H", 0)]);
    let great = with(&member(6), &[("S", 4000), ("l", 1000), ("T", 4000)]);
    let lines = "  rounded up: W ≥ 227592
  W 227592 is past the gauge's last, 100000
  no number of the gauge meets it, has 1 (0.1 cm³): fails";
    has(&deep, &great, lines);
    let lines = "  rounded up: A ≥ 17658
  A 17658 is past the gauge's last, 16000
  no number of the gauge meets it, has 1 (0.01 cm²): fails
verdict: fails rule 5, no number of the gauge meets it";
    has(&deep, &great, lines);
    let laden = |cargo| with(&plate(3), &[("S", 2000), ("cargo", cargo)]);
    let lines = "  rounded up: T² ≥ 16000103; root, rounded down: 4000
  tested: T 4000: T² = 16000000 < 16000103, not met
  one more is past the gauge's last, 4000
  no number of the gauge meets it, has 1 (0.01 mm): fails";
    has(&vessel_v(), &laden(156_251), lines);
    let lines = "  rounded up: T² ≥ 20480000; root, rounded down: 4525
  T 4525 is past the gauge's last, 4000
  no number of the gauge meets it, has 1 (0.01 mm): fails";
    has(&vessel_v(), &laden(200_000), lines);
}

/// Kind 1 with K2 1000, S 500, by the moments of case 7 and case 8.
#[test]
fn forms_of_rule_3() {
    let v = |M| with(&vessel_v(), &[("M", M), ("ZB", 1_000_000)]);
    let square = with(&plate(1), &[("b1", 1000), ("b2", 10)]);
    let lines = "\
rule 3: Ch 4 Table 2.6.1, t3 = 68·s/k2·√(MH/ZB);
  where t3/s > 22/(√k·k2): t3 = 7.1·√k·s/(k2·√(0.21 − MH/ZB))
  M 104671 kNm, ZB 1000000 cm³
  R = 1000000M/ZB = 104671, remainder 0; rounded up: 104671
  b1 1000 cm, b2 10 cm
  K2 = 1000(b1² + b2²)/b1² = 1000, remainder 100000; rounded down: 1000
  1156KR = 120999676000 ≤ 121000000000, K 1000: the first form
  25T²K2² ≥ 1156S²R; S 500 mm, K2 1000, R 104671
  T² ≥ 1156S²R/(25K2²) = 1209996, remainder 19000000
  rounded up: T² ≥ 1209997; root, rounded down: 1099
  tested: T 1099: T² = 1207801 < 1209997, not met
  one more: T 1100: T² = 1210000 ≥ 1209997, met";
    has(&v(104_671), &square, lines);
    // 504,100,000 x 500² x 1000 / (1000² x 105,328) = 1,196,500.0...
    let lines = "  1156KR = 121000832000 > 121000000000, K 1000: the second form
  T²K2²(210000 − R) ≥ 504100000S²K; S 500 mm, K 1000, K2 1000, R 104672
  T² ≥ 504100000S²K/(K2²(210000 − R)) = 1196500, remainder 48000000000
  rounded up: T² ≥ 1196501; root, rounded down: 1093
  tested: T 1093: T² = 1194649 < 1196501, not met
  one more: T 1094: T² = 1196836 ≥ 1196501, met";
    has(&v(104_672), &square, lines);
    let lines = "  rounded up: T² ≥ 126025000000; root, rounded down: 355000
  T 355000 is past the gauge's last, 4000
  no number of the gauge meets it, has 1 (0.01 mm): fails
verdict: fails rule 1, required 605 (6.05 mm)";
    has(&v(209_999), &square, lines);
    let lines = "  R = 1000000M/ZB = 210000, remainder 0; rounded up: 210000
  6084KR = 1277640000000 > 625000000000, K 1000: the second form
  10T²(210000 − R) ≥ 1681S²K; S 500 mm, K 1000, R 210000
  tested: R 210000 is not below 210000, so no T meets the rule
  no number of the gauge meets it, has 4000 (40.00 mm): fails
verdict: fails rule 3, no number of the gauge meets it";
    has(&v(210_000), &with(&plate(2), &[("T", 4000)]), lines);
}

/// K2 at its cap, just under it and just above (case 6).
#[test]
fn panels() {
    let K2 = |b1, b2, line| {
        let lines = format!("  b1 {b1} cm, b2 {b2} cm\n  K2 = 1000(b1² + b2²)/b1² = {line}");
        has(
            &vessel_v(),
            &with(&plate(1), &[("b1", b1), ("b2", b2)]),
            &lines,
        );
    };
    K2(10, 60, "37000, remainder 0; at most 26000");
    K2(10, 50, "26000, remainder 0; rounded down: 26000");
    K2(101, 506, "26099, remainder 1101; at most 26000");
    K2(101, 505, "26000, remainder 0; rounded down: 26000");
    K2(199, 995, "26000, remainder 0; rounded down: 26000");
    K2(200, 1000, "26000, remainder 0; rounded down: 26000");
    K2(199, 994, "25949, remainder 30651; rounded down: 25949");
}

/// R at which 4000 is met exactly, and one more: kind 4 with S 2000, 10^8 x 4000² =
/// 1521 x 2000² x R for R 262,984.9; kind 3 with K2 1000, R 86,505.2.
#[test]
fn the_first_form_past_the_gauge() {
    let v = |R| with(&vessel_v2(), &[("M", R), ("ZDB", 1_000_000)]);
    let wide = with(&plate(4), &[("S", 2000)]);
    let lines = "  rounded up: T² ≥ 15999947; root, rounded down: 3999
  tested: T 3999: T² = 15992001 < 15999947, not met
  one more: T 4000: T² = 16000000 ≥ 15999947, met";
    has(&v(262_984), &wide, lines);
    let lines = "  100000000T² ≥ 1521S²R; S 2000 mm, R 262985
  at T 4000, the last: R ≤ 100000000T²/(1521S²) = 262984, remainder 5344000000
  tested: R 262985 is above it, so no T of the gauge meets the rule
  no number of the gauge meets it, has 1 (0.01 mm): fails";
    has(&v(262_985), &wide, lines);
    let square = with(&plate(3), &[("S", 2000), ("b1", 1000), ("b2", 10)]);
    let lines = "  T² ≥ 1156S²R/(25K2²) = 15999964, remainder 20000000";
    has(&v(86_505), &square, lines);
    let lines = "  at T 4000, the last: R ≤ 25T²K2²/(1156S²) = 86505, remainder 880000000
  tested: R 86506 is above it, so no T of the gauge meets the rule";
    has(&v(86_506), &square, lines);
}

#[test]
fn no_stress_left() {
    for (kind, limit) in [(5, 214), (8, 197)] {
        let at = |sigma1| of(&vessel_v(), &with(&member(kind), &[("sigma1", sigma1)]));
        let line = |sigma1| {
            format!(
                "  tested: σ1 {sigma1} is not below {limit}, so no W meets the rule\n  no number "
            )
        };
        assert!(!at(limit - 1).contains("is not below"));
        assert!(at(limit).contains(&line(limit)) && at(255).contains(&line(255)));
    }
}

/// Sheets of every version, wave height and stress: each record's verdict is the check's,
/// and what is worked out is the least number, or one under it where there is a root.
#[test]
fn trails_agree_with_the_check() {
    for index in 0..7 {
        let bytes = full_sheet(3, index);
        let (header, records) = read_all(&bytes, usize::MAX).expect("a sound sheet");
        for record in records.iter().step_by(5) {
            let verdict = judge(&header, record);
            let trail = trail(&header, record);
            let last = match (verdict.rule, verdict.required) {
                (0, _) => "verdict: passes\n".to_string(),
                (rule, 0) => {
                    format!("verdict: fails rule {rule}, no number of the gauge meets it\n")
                }
                (rule, required) => format!("verdict: fails rule {rule}, required {required} ("),
            };
            assert!(trail.contains(&last), "{last}{trail}");
            assert!(trail.contains(&format!("  decides: source {}, P ", verdict.source)));
            let least = required(&header.form(), &record.form());
            for (x, least) in worked_out(&header, record).into_iter().zip(least) {
                if let (Some(x), Some(least)) = (x, least) {
                    assert!(x == least || x == least - 1, "{trail}");
                }
            }
        }
    }
}

/// A few full sheets already bring up nearly every line; two members do not, and the tally
/// says so, as it does of a text that is no line where it stands.
#[test]
fn lines_are_told() {
    let sheets = (0..7).map(|index| explained(&full_sheet(1, index), None));
    let tally = TrailTally::of(&sheets.collect::<String>());
    assert_eq!(tally.strangers, Vec::<String>::new());
    let seen = tally.counts.iter().filter(|(_, count)| *count > 0);
    assert!(seen.count() >= all().len() - 3);
    let tally = TrailTally::of(EXAMPLE);
    let counted: usize = tally.counts.iter().map(|(_, count)| count).sum();
    assert_eq!(counted, EXAMPLE.lines().count());
    assert_eq!(tally.complaints().len(), all().len());
    let often = TrailTally::of(&EXAMPLE.repeat(ENOUGH));
    let seen = tally.counts.iter().filter(|(_, count)| *count > 0).count();
    assert_eq!(often.complaints().len(), all().len() - seen);
    for (line, other) in [
        ("  625000000000T²", "  625000000001T²"),
        ("617 (6.17 mm)", "617 (61.7 cm³)"),
        ("  L 8000 cm", "  L  8000 cm"),
        ("verdict: fails", "verdict fails"),
    ] {
        let spoilt = TrailTally::of(&EXAMPLE.replace(line, other));
        assert!(!spoilt.strangers.is_empty(), "{other}");
    }
    assert_eq!(TrailTally::of("refused 4 0\n").strangers, ["refused 4 0"]);
}
