//! Plates of sheets with two moduli, counted where it shows which of them a plate
//! answers to, and where rule 3 stands at its edge by that one. All counts are by kind
//! (row 0 unused).

use crate::loads::hull_stress;
use crate::rules::demands;
use crate::sheet::{Header, Own, Plate, Record};

#[derive(Default)]
pub struct Moduli {
    /// It passes, and by the other modulus would fail; it fails, and would pass.
    pub passes_by_own: [usize; 5],
    pub fails_by_own: [usize; 5],
    /// It passes, and with R one greater would fail; it fails, and with R one less
    /// would pass.
    pub just_passes: [usize; 5],
    pub just_fails: [usize; 5],
}

impl Moduli {
    pub fn count(&mut self, header: &Header, plate: &Plate) {
        let Some(exchanged) = exchanged(header) else {
            return;
        };
        let kind = plate.kind as usize;
        let R = hull_stress(header, plate.kind);
        if passes(header, plate) {
            self.passes_by_own[kind] += usize::from(!passes(&exchanged, plate));
            self.just_passes[kind] += usize::from(!passes(&stressed(header, R + 1), plate));
        } else {
            self.fails_by_own[kind] += usize::from(passes(&exchanged, plate));
            self.just_fails[kind] += usize::from(passes(&stressed(header, R - 1), plate));
        }
    }

    pub fn lines(&self) -> Vec<String> {
        let line = |name: &str, passes: &[usize; 5], fails: &[usize; 5]| {
            let kinds = (1..=4).map(|kind| format!("{kind}: {} {}", passes[kind], fails[kind]));
            format!("{name} {}", kinds.collect::<Vec<_>>().join(", "))
        };
        vec![
            line(
                "plates that pass, and fail, by their own modulus alone",
                &self.passes_by_own,
                &self.fails_by_own,
            ),
            line(
                "plates that just pass, and just fail, by it",
                &self.just_passes,
                &self.just_fails,
            ),
        ]
    }
}

fn passes(header: &Header, plate: &Plate) -> bool {
    let demands = demands(header, &Record::Plate(*plate));
    demands.iter().all(|demand| demand.is_met())
}

/// A header whose plates answer to the modulus that is not theirs; none where there is
/// one modulus for both.
fn exchanged(header: &Header) -> Option<Header> {
    match header.own {
        Own::Version1 => None,
        Own::Version2 { ZDB, depth } => Some(Header {
            ZB: ZDB,
            own: Own::Version2 {
                ZDB: header.ZB,
                depth,
            },
            ..*header
        }),
    }
}

/// A header under which R is this number on every plate.
fn stressed(header: &Header, R: i128) -> Header {
    Header {
        M: R,
        ZB: 1_000_000,
        own: Own::Version1,
        ..*header
    }
}
