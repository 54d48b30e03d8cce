//! Plates with ballast as great as the load beside it, or a step to either side:
//! of two equal loads the one with the lower number must be named.

use super::chance::Chance;
use crate::form::Form;
use crate::loads::{relief, sea};
use crate::sheet::Header;

/// Brings a plate's two loads together.
pub fn even_loads(chance: &mut Chance, header: &Header, plate: &mut Form) {
    plate.set("ballast", 1);
    if plate.get("kind") <= 2 {
        ballast_as_sea(chance, header, plate);
    } else {
        cargo_as_ballast(chance, plate);
    }
}

/// The highest tank top with which ballast less relief is not above the sea, or a
/// centimetre to either side. At or below the draught, and where there is relief,
/// they are equal if 23 D0 = 20 (zL + 100), whatever z is. Above it they never are:
/// ballast and relief are multiples of 4905, as 50031 x 60 is, and none of the three
/// sea pressures is.
fn ballast_as_sea(chance: &mut Chance, header: &Header, plate: &mut Form) {
    let z = plate.get("z");
    let head = (sea(header, z).P + relief(header)) / 98_100;
    let zL = z + head - 100 + chance.of(&[-1, 0, 0, 1]);
    plate.set("zL", zL.clamp(z, 1200));
}

/// Ballast presses with 98.1 Pa for each centimetre, so that cargo, in whole pascals,
/// can equal it at every tenth; that, or a pascal or a centimetre to either side.
fn cargo_as_ballast(chance: &mut Chance, plate: &mut Form) {
    let z = plate.get("z");
    let tens = chance.between(0, (1200 - z) / 10);
    let steps = [(0, 0), (0, 0), (-1, 0), (1, 0), (0, -1), (0, 1)];
    let (pascals, centimetres) = *chance.of(&steps);
    plate.set("cargo", 981 * (tens + 10) + pascals);
    plate.set("zL", (z + 10 * tens + centimetres).clamp(z, 1200));
}
