//! Sheets for the cases of length over depth.

use super::chance::Chance;
use super::whole::of_vessel;
use super::{spoil, vessel};
use crate::form::Form;
use crate::hull_case::HullCase::{self, AtLimit, FieldFirst, NoDepth};
use crate::limits::in_header;
use crate::version::Version;

pub fn sheet(chance: &mut Chance, version: &Version, case: HullCase) -> Vec<u8> {
    let vessel = vessel::header(chance, version);
    match case {
        AtLimit {
            H,
            times,
            more,
            behind,
        } => {
            let hull = at_limit(chance, vessel, H, times, more);
            let n = chance.between(3, 6);
            let draft = of_vessel(chance, hull, n);
            spoil::behind_the_header(chance, draft, behind)
        }
        FieldFirst { field } => with_field_at_fault(chance, vessel, field),
        NoDepth { H, L } => without_depth(chance, vessel, H, L),
    }
}

/// The vessel with L so many times its depth and so much more, within the values of L.
fn at_limit(chance: &mut Chance, mut vessel: Form, H: i128, times: i128, more: i128) -> Form {
    let lengths = in_header(&vessel, "L");
    let least = (lengths.lowest() - more + times - 1) / times;
    let greatest = (lengths.highest() - more) / times;
    let any = chance.between(least, greatest);
    let depth = *chance.of(&[least, greatest, any, any]);
    vessel.fill(&[("H", H), ("L", times * depth + more), ("depth", depth)]);
    vessel
}

/// Past its values, to the side where a slender hull stays too slender.
fn with_field_at_fault(chance: &mut Chance, mut vessel: Form, field: usize) -> Vec<u8> {
    vessel::make_slender(chance, &mut vessel);
    let n = chance.between(0, 3);
    let mut draft = of_vessel(chance, vessel, n);
    let name = draft.header.layout[field - 1].0;
    let allowed = in_header(&draft.header, name);
    draft.header.values[field - 1] = match name {
        "depth" => allowed.lowest() - 1,
        _ => allowed.highest() + 1,
    };
    draft.bytes()
}

fn without_depth(chance: &mut Chance, mut vessel: Form, H: i128, L: i128) -> Vec<u8> {
    vessel.fill(&[("H", H), ("L", L)]);
    let n = chance.between(0, 3);
    of_vessel(chance, vessel, n).bytes()
}
