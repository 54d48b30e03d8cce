//! The loads on a record, each with its numbers, and the one that decides.

use super::blanks::{filled, written};
use super::words::loads as w;
use crate::loads;
use crate::sheet::{Header, Member, Plate, Record};

pub fn loads(header: &Header, record: &Record) -> String {
    let decides = loads::pressure(header, record);
    let each = match record {
        Record::Plate(plate) => on_plate(header, plate),
        Record::Member(member) => on_member(header, member),
    };
    filled(w::LOADS, 0, &[]) + &each + &filled(w::DECIDES, 0, &[decides.source, decides.P])
}

fn on_plate(header: &Header, plate: &Plate) -> String {
    match (plate.kind, plate.ballast) {
        (1 | 2, false) => sea(header, plate.z),
        (1 | 2, true) => sea(header, plate.z) + &ballast_on_bottom(header, plate),
        (_, false) => cargo(plate),
        (_, true) => cargo(plate) + &ballast(plate),
    }
}

fn on_member(header: &Header, member: &Member) -> String {
    if member.kind == 5 {
        return sea(header, member.z);
    }
    let runs = if header.two_runs {
        two_runs(header)
    } else {
        one_run(header)
    };
    filled(w::WHOLE_DRAUGHT, 0, &[]) + &runs
}

fn sea(header: &Header, z: i128) -> String {
    if z > header.D0 {
        return sea_above(header, z);
    }
    let Header { D0, H, .. } = *header;
    let (water, waves) = (loads::water(D0 - z), loads::waves(header));
    let [source, printed, here, with] = w::SEA;
    written(&[
        (source, &[]),
        (printed, &[]),
        (here, &[]),
        (with, &[D0, z, H, water, waves, water + waves]),
    ])
}

fn sea_above(header: &Header, z: i128) -> String {
    let Header { D0, H, .. } = *header;
    let crest = loads::crest(header);
    let taken = crest.max(loads::LEAST_CREST);
    let wind = loads::wind(header);
    let [source, printed, here, with] = w::SEA_ABOVE;
    let lines = written(&[
        (source, &[]),
        (printed, &[]),
        (here, &[]),
        (with, &[z, D0, H, crest, taken]),
    ]);
    lines
        + &if loads::blows(header) {
            filled(w::WIND, 0, &[taken, wind, taken + wind])
        } else {
            filled(w::LITTLE_WIND, 0, &[taken, taken + wind])
        }
}

fn ballast_on_bottom(header: &Header, plate: &Plate) -> String {
    let (pB, pM) = (loads::ballast(plate), loads::relief(header));
    let [source, printed, of_tank] = w::BALLAST_ON_BOTTOM;
    let lines = written(&[
        (source, &[]),
        (printed, &[]),
        (of_tank, &[plate.zL, plate.z, pB]),
    ]);
    let less = if pB < pM {
        filled(w::ALL_RELIEVED, 0, &[pB, pM])
    } else {
        filled(w::LESS_RELIEF, 0, &[pB, pM, pB - pM])
    };
    lines + &relief(header) + &less
}

fn relief(header: &Header) -> String {
    let Header { D0, H, .. } = *header;
    let (sea, waves) = (loads::least_sea(header), loads::waves(header));
    if sea < waves {
        filled(w::NO_RELIEF, 0, &[D0, H, sea, waves])
    } else {
        filled(w::RELIEF, 0, &[D0, H, sea, waves, sea - waves])
    }
}

fn cargo(plate: &Plate) -> String {
    let [source, with] = w::CARGO;
    let cargo = plate.cargo;
    written(&[(source, &[]), (with, &[cargo, loads::cargo(plate)])])
}

fn ballast(plate: &Plate) -> String {
    let [source, with] = w::BALLAST;
    let pB = loads::ballast(plate);
    written(&[(source, &[]), (with, &[plate.zL, plate.z, pB])])
}

fn one_run(header: &Header) -> String {
    let Header { D0, H, .. } = *header;
    let (water, waves) = (loads::water(D0), loads::waves(header));
    let [printed, here, with] = w::ONE_RUN;
    written(&[
        (printed, &[]),
        (here, &[]),
        (with, &[D0, H, water, waves, water + waves]),
    ])
}

fn two_runs(header: &Header) -> String {
    let Header { D0, H, .. } = *header;
    let exactly = loads::water_in_two_runs(header);
    let (water, waves) = (exactly.up(), loads::waves(header));
    let [printed, here, divided, with] = w::TWO_RUNS;
    written(&[
        (printed, &[]),
        (here, &[]),
        (divided, &[D0, exactly.whole, exactly.remainder]),
        (with, &[water, H, water, waves, water + waves]),
    ])
}
