//! What every rule ends with: the root, the last step, the result; and the verdict.

pub const X_ROOT: &str = "  rounded up: X² ≥ #; root, rounded down: #";
pub const T_ROOT: &str = "  rounded up: T² ≥ #; root, rounded down: #";
pub const T_ROUNDED: &str = "  rounded up: T #";

/// The first number tested, by X and by T alone: it meets the rule and one less does not;
/// it does not and one more does.
pub const MEETS: [[&str; 2]; 2] = [
    [
        "  tested: T #, X #: X² = # ≥ #, met",
        "  one less: T #, X #: X² = # < #, not met",
    ],
    [
        "  tested: T #: T² = # ≥ #, met",
        "  one less: T #: T² = # < #, not met",
    ],
];
pub const SHORT: [[&str; 2]; 2] = [
    [
        "  tested: T #, X #: X² = # < #, not met",
        "  one more: T #, X #: X² = # ≥ #, met",
    ],
    [
        "  tested: T #: T² = # < #, not met",
        "  one more: T #: T² = # ≥ #, met",
    ],
];

/// In place of one more, where the first number is the gauge's last.
pub const NO_MORE: &str = "  one more is past the gauge's last, #";

/// By scantling: T, W and A.
pub const BEGINS: [&str; 3] = [
    "  T 1 meets the rule, and the gauge begins there",
    "  W 1 meets the rule, and the gauge begins there",
    "  A 1 meets the rule, and the gauge begins there",
];
pub const PAST: [&str; 3] = [
    "  T # is past the gauge's last, #",
    "  W # is past the gauge's last, #",
    "  A # is past the gauge's last, #",
];

pub const RESULT_MET: &str = "  least @, has @: met, margin #";
pub const RESULT_SHORT: &str = "  least @, has @: fails, short by #";
pub const RESULT_NONE: &str = "  no number of the gauge meets it, has @: fails";

pub const VERDICT_PASSES: &str = "verdict: passes";
pub const VERDICT_REQUIRED: &str = "verdict: fails rule #, required @";
pub const VERDICT_NOTHING: &str = "verdict: fails rule #, no number of the gauge meets it";
