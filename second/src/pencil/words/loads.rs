//! The loads on a member.

pub const LOADS: &str = "loads on it, in mPa:";

pub const SEA: [&str; 4] = [
    "  source 0, sea at or below the draught: Ch 2 Sec 3 [3.7.1] a",
    "    pE = 9.81(T − z + 0.6n), n = 0.85H",
    "    98100(D0 − z) + 50031H; 50031 is 9.81·0.6·0.85 in mPa for each cm",
    "    D0 # cm, z # cm, H # cm: # + # = #",
];

pub const SEA_ABOVE: [&str; 4] = [
    "  source 1, sea above the draught: Ch 2 Sec 3 [3.7.1] b, Table 3.7.1",
    "    pE = max(5.9n; 3) + pWD, n = 0.85H",
    "    max(50150H, 3000000) + pWD; 50150 is 5.9·0.85 in mPa for each cm",
    "    z # cm is above D0 # cm; H # cm: max(#, 3000000) = #",
];
pub const LITTLE_WIND: &str = "    pWD = 0.25 in kN/m², as H is not 120: # + 250000 = #";
pub const WIND: &str = "    pWD = 0.4n, 3400H, as H is 120: # + # = #";

pub const BALLAST_ON_BOTTOM: [&str; 3] = [
    "  source 2, ballast less the least sea: Ch 2 Sec 3 [3.10.2] b, Ch 4 Table 2.6.1",
    "    pB − pM, pB = 9.81(ZL − z + 1), pM = 9.81(0.15T − 0.6n) ≥ 0, n = 0.85H",
    "    pB is 98100(zL − z + 100): zL # cm, z # cm: #",
];
pub const RELIEF: &str = "    pM is 14715D0 − 50031H: D0 # cm, H # cm: # − # = #";
pub const NO_RELIEF: &str = "    pM is 14715D0 − 50031H: D0 # cm, H # cm: # < #, so 0";
pub const LESS_RELIEF: &str = "    pB − pM = # − # = #";
pub const ALL_RELIEVED: &str = "    pB − pM: # < #, so 0";

pub const CARGO: [&str; 2] = [
    "  source 3, cargo: pC as entered, Ch 4 Table 2.6.1",
    "    # Pa, times 1000: #",
];

pub const BALLAST: [&str; 2] = [
    "  source 2, ballast: Ch 2 Sec 3 [3.10.2] b, pB = 9.81(ZL − z + 1)",
    "    98100(zL − z + 100): zL # cm, z # cm: #",
];

pub const WHOLE_DRAUGHT: &str = "  source 0, sea on the whole draught: Ch 4 Table 2.8.1";
pub const ONE_RUN: [&str; 3] = [
    "    pγE = 9.81(γT + 0.6n), γ = 1 in one run, n = 0.85H",
    "    98100D0 + 50031H; 50031 is 9.81·0.6·0.85 in mPa for each cm",
    "    D0 # cm, H # cm: # + # = #",
];
pub const TWO_RUNS: [&str; 4] = [
    "    pγE = 9.81(γT + 0.6n), γ = 0.575 in two runs, n = 0.85H",
    "    56407.5D0 + 50031H; 50031 is 9.81·0.6·0.85 in mPa for each cm",
    "    56407.5D0 is 564075·#/10 = #, remainder #",
    "    rounded up: #; H # cm: # + # = #",
];

pub const DECIDES: &str = "  decides: source #, P # mPa";
