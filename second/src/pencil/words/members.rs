//! Rules 4 to 6.

/// Rule 4 of kind 5 under L = 12000 and from there on, and of kinds 6 to 8: as printed, in
/// whole numbers, what goes in, the right side, and T by the root.
pub const WEB: [[&str; 5]; 3] = [
    [
        "rule 4: Ch 4 Sec 2 [2.7.1], t = 1.63 + 0.004·L·√k + 4.5·s, L < 120 m",
        "  X = 100T − 16300 − 45S ≥ 0, 6250X² ≥ L²K; X in 1/10000 mm",
        "  L # cm, under 12000; K #, S # mm",
        "  X² ≥ L²K/6250 = #, remainder #",
        "  T ≥ (# + 16300 + 45S)/100, 45S = #: #, remainder #",
    ],
    [
        "rule 4: Ch 4 Sec 2 [2.7.1], t = 3.9·√k + s, L ≥ 120 m",
        "  X = 10T − S ≥ 0, X² ≥ 15210K; X in 1/1000 mm",
        "  L # cm, not under 12000; K #, S # mm",
        "  X² ≥ 15210K = #; root, rounded down: #",
        "  T ≥ (# + S)/10: #, remainder #",
    ],
    [
        "rule 4: Ch 4 Sec 2 [2.7.1], t = 3.8 + 0.016·L·√k",
        "  X = 100T − 38000 ≥ 0, 3125X² ≥ 8L²K; X in 1/10000 mm",
        "  L # cm, K #",
        "  X² ≥ 8L²K/3125 = #, remainder #",
        "  T ≥ (# + 38000)/100: #, remainder #",
    ],
];

/// The line load.
pub const PRESSURE_SPACING: &str = "  P # mPa, S # mm";
pub const LINE_LOAD: &str = "  q = PS/1000000 = #, remainder #; rounded up: # N/m";

/// Rule 5 of kind 5, of kinds 6 and 7, and of kind 8: as printed, in whole numbers, the
/// right side.
pub const MODULUS: [[&str; 3]; 3] = [
    [
        "rule 5: Ch 4 Table 2.8.1, w = 83.3/(214 − σ1)·βb·η·pE·s·l²",
        "  10¹¹W(214 − σ1) ≥ 833βbηql²; βb #, η #, l # cm, σ1 #",
        "  W ≥ 833βbηql²/(10¹¹(214 − σ1)) = #, remainder #",
    ],
    [
        "rule 5: Ch 4 Table 2.8.1, w = 0.58·βb·pγE·s·l²",
        "  5·10⁹W ≥ 29βbql²; βb #, l # cm",
        "  W ≥ 29βbql²/(5·10⁹) = #, remainder #",
    ],
    [
        "rule 5: Ch 4 Table 2.8.1, w = 125/(197 − σ1)·βb·η·pγE·S·l²",
        "  2·10⁹W(197 − σ1) ≥ 25βbηql²; βb #, η #, l # cm, σ1 #",
        "  W ≥ 25βbηql²/(2·10⁹(197 − σ1)) = #, remainder #",
    ],
];

/// In place of the right side where the hull girder leaves no stress: kinds 5 and 8.
pub const NO_STRESS_LEFT: [&str; 2] = [
    "  tested: σ1 # is not below 214, so no W meets the rule",
    "  tested: σ1 # is not below 197, so no W meets the rule",
];

/// Rule 6 of kind 5, of kinds 6 and 7, and of kind 8: as rule 5.
pub const SHEAR: [[&str; 3]; 3] = [
    [
        "rule 6: Ch 4 Table 2.8.1, Ash = 0.045·βs·η·pE·s·l",
        "  2·10⁹A ≥ 9βsηql; βs #, η #, q # N/m, l # cm",
        "  A ≥ 9βsηql/(2·10⁹) = #, remainder #",
    ],
    [
        "rule 6: Ch 4 Table 2.8.1, Ash = 0.045·βs·pγE·s·l",
        "  2·10⁷A ≥ 9βsql; βs #, q # N/m, l # cm",
        "  A ≥ 9βsql/(2·10⁷) = #, remainder #",
    ],
    [
        "rule 6: Ch 4 Table 2.8.1, Ash = 0.056·βs·pγE·S·l",
        "  12500000A ≥ 7βsql; βs #, q # N/m, l # cm",
        "  A ≥ 7βsql/12500000 = #, remainder #",
    ],
];

pub const W_ROUNDED: &str = "  rounded up: W ≥ #";
pub const A_ROUNDED: &str = "  rounded up: A ≥ #";
