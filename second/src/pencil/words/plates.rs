//! Rules 1 to 3.

/// Rule 1 of kind 1, of kind 2, and of kinds 3 and 4: as printed, in whole numbers, the
/// right side, and T by the root.
pub const T1: [[&str; 4]; 3] = [
    [
        "rule 1: Ch 4 Table 2.6.1, t1 = 1.85 + 0.03·L·√k + 3.6·s",
        "  X = 100T − 18500 − 36S ≥ 0, 1000X² ≥ 9L²K; X in 1/10000 mm",
        T1_BOTTOM,
        "  T ≥ (# + 18500 + 36S)/100, 36S = #: #, remainder #",
    ],
    [
        "rule 1: Ch 4 Table 2.6.1, t1 = 1.1 + 0.03·L·√k + 3.6·s",
        "  X = 100T − 11000 − 36S ≥ 0, 1000X² ≥ 9L²K; X in 1/10000 mm",
        T1_BOTTOM,
        "  T ≥ (# + 11000 + 36S)/100, 36S = #: #, remainder #",
    ],
    [
        "rule 1: Ch 4 Table 2.6.1, t1 = 1.5 + 0.016·L·√k + 3.6·s",
        "  X = 100T − 15000 − 36S ≥ 0, 3125X² ≥ 8L²K; X in 1/10000 mm",
        "  X² ≥ 8L²K/3125 = #, remainder #",
        "  T ≥ (# + 15000 + 36S)/100, 36S = #: #, remainder #",
    ],
];
const T1_BOTTOM: &str = "  X² ≥ 9L²K/1000 = #, remainder #";
pub const LENGTH_STEEL_SPACING: &str = "  L # cm, K #, S # mm";

/// Rule 2, transverse and longitudinal: as printed, in whole numbers, the right side.
pub const T2: [[&str; 3]; 2] = [
    [
        "rule 2: Ch 4 Table 2.6.1, t2 = 1.6·s·√(k·p)",
        "  39062500000T² ≥ S²KP",
        "  T² ≥ S²KP/39062500000 = #, remainder #",
    ],
    [
        "rule 2: Ch 4 Table 2.6.1, t2 = 1.2·s·√(k·p)",
        "  625000000000T² ≥ 9S²KP",
        "  T² ≥ 9S²KP/625000000000 = #, remainder #",
    ],
];
pub const SPACING_STEEL_PRESSURE: &str = "  S # mm, K #, P # mPa";

/// Rule 3 of the bottom as printed, transverse and longitudinal.
pub const T3_BOTTOM: [[&str; 2]; 2] = [
    [
        "rule 3: Ch 4 Table 2.6.1, t3 = 68·s/k2·√(MH/ZB);",
        "  where t3/s > 22/(√k·k2): t3 = 7.1·√k·s/(k2·√(0.21 − MH/ZB))",
    ],
    [
        "rule 3: Ch 4 Table 2.6.1, t3 = 39·s·√(MH/ZB);",
        "  where t3/s > 12.5/√k: t3 = 4.1·√k·s/√(0.21 − MH/ZB)",
    ],
];

/// The same of the inner bottom, and how it is taken there.
pub const T3_INNER: [&str; 2] = [
    "rule 3: Ch 4 Table 2.6.1, t3 = 68·s/k2·√(MH/ZB)",
    "rule 3: Ch 4 Table 2.6.1, t3 = 39·s·√(MH/ZB)",
];
pub const INNER: &str = "  on the inner bottom MH/ZDB is taken, and there is no second form";
pub const NO_ZDB: &str = "  ZB stands for ZDB, which a sheet of version 1 does not have";

/// R by the modulus of the bottom, and by that of the inner bottom.
pub const R: [[&str; 2]; 2] = [
    [
        "  M # kNm, ZB # cm³",
        "  R = 1000000M/ZB = #, remainder #; rounded up: #",
    ],
    [
        "  M # kNm, ZDB # cm³",
        "  R = 1000000M/ZDB = #, remainder #; rounded up: #",
    ],
];

/// K2, and K2 at its cap.
pub const PANEL: &str = "  b1 # cm, b2 # cm";
pub const K2: &str = "  K2 = 1000(b1² + b2²)/b1² = #, remainder #; rounded down: #";
pub const K2_CAPPED: &str = "  K2 = 1000(b1² + b2²)/b1² = #, remainder #; at most 26000";

/// Which form the bottom takes, transverse and longitudinal: the first, the second.
pub const FORK: [[&str; 2]; 2] = [
    [
        "  1156KR = # ≤ 121000000000, K #: the first form",
        "  1156KR = # > 121000000000, K #: the second form",
    ],
    [
        "  6084KR = # ≤ 625000000000, K #: the first form",
        "  6084KR = # > 625000000000, K #: the second form",
    ],
];

/// The first form, transverse and longitudinal: in whole numbers, the right side, and what
/// stands in its place where the gauge's last does not meet it.
pub const FIRST_FORM: [[&str; 3]; 2] = [
    [
        "  25T²K2² ≥ 1156S²R; S # mm, K2 #, R #",
        "  T² ≥ 1156S²R/(25K2²) = #, remainder #",
        "  at T 4000, the last: R ≤ 25T²K2²/(1156S²) = #, remainder #",
    ],
    [
        "  100000000T² ≥ 1521S²R; S # mm, R #",
        "  T² ≥ 1521S²R/100000000 = #, remainder #",
        "  at T 4000, the last: R ≤ 100000000T²/(1521S²) = #, remainder #",
    ],
];
pub const R_PAST_THE_GAUGE: &str = "  tested: R # is above it, so no T of the gauge meets the rule";

/// The second form, transverse and longitudinal: in whole numbers, the right side.
pub const SECOND_FORM: [[&str; 2]; 2] = [
    [
        "  T²K2²(210000 − R) ≥ 504100000S²K; S # mm, K #, K2 #, R #",
        "  T² ≥ 504100000S²K/(K2²(210000 − R)) = #, remainder #",
    ],
    [
        "  10T²(210000 − R) ≥ 1681S²K; S # mm, K #, R #",
        "  T² ≥ 1681S²K/(10(210000 − R)) = #, remainder #",
    ],
];
pub const R_TOO_HIGH: &str = "  tested: R # is not below 210000, so no T meets the rule";
