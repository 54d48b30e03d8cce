//! A whole sheet: one that no check turns away, or bytes of no meaning.

use super::chance::Chance;
use super::draft::Draft;
use super::{record, vessel};
use crate::form::{Form, RECORD_BYTES};
use crate::limits::ID_HIGHEST;
use crate::version::{Version, VERSIONS};

/// Ids that rise strictly and end at or under the highest one.
pub fn rising_ids(chance: &mut Chance, n: i128) -> Vec<i128> {
    let widest_step = ID_HIGHEST / n.max(1);
    let mut ids: Vec<i128> = Vec::new();
    for _ in 0..n {
        let step = chance.between(1, widest_step);
        ids.push(ids.last().unwrap_or(&0) + step);
    }
    if let (true, Some(last)) = (chance.one_in(8), ids.last_mut()) {
        *last = ID_HIGHEST;
    }
    ids
}

/// A sheet with `n` records that no check turns away.
pub fn sound(chance: &mut Chance, n: i128) -> Draft {
    let version = chance.of(VERSIONS);
    sound_in(chance, version, n)
}

/// A sound sheet with as many records as its version allows.
pub fn full(chance: &mut Chance) -> Draft {
    let version = chance.of(VERSIONS);
    sound_in(chance, version, version.n_highest)
}

pub fn version_with_depth(chance: &mut Chance) -> &'static Version {
    let versions = VERSIONS.iter().filter(|version| version.has_depth());
    let versions: Vec<&Version> = versions.collect();
    versions[chance.below(versions.len())]
}

/// A sound sheet of this version.
pub fn sound_in(chance: &mut Chance, version: &Version, n: i128) -> Draft {
    let header = vessel::header(chance, version);
    of_vessel(chance, header, n)
}

/// A sheet of this vessel with `n` sound records.
pub fn of_vessel(chance: &mut Chance, mut header: Form, n: i128) -> Draft {
    header.set("n", n);
    let ids = rising_ids(chance, n);
    let records = ids
        .into_iter()
        .map(|id| record::record(chance, &header, id));
    let records = records.collect();
    Draft { header, records }
}

/// Bytes of no meaning; half of them begin as a header of a few records would, or as
/// much of one as they have room for.
pub fn noise(chance: &mut Chance) -> Vec<u8> {
    let version = chance.of(VERSIONS);
    let length = match chance.below(4) {
        0 => chance.below(version.bytes),
        1 => version.bytes,
        2 => chance.between(version.bytes as i128 + 1, 300) as usize,
        _ => version.sheet_bytes(chance.between(1, 6)),
    };
    let mut bytes: Vec<u8> = (0..length).map(|_| chance.byte()).collect();
    if chance.one_in(2) {
        let mut header = vessel::header(chance, version);
        let behind = length.saturating_sub(version.bytes);
        header.set("n", (behind / RECORD_BYTES) as i128);
        bytes.splice(..length.min(version.bytes), header.pack());
        bytes.truncate(length);
    }
    bytes
}
