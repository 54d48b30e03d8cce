//! Sheets at an edge: one record each, whose answer would be another one if a
//! factor of its rule, or the load on it, were greater or less by the least that
//! whole numbers allow. With them a slip of one in any number of the document,
//! however great the number, gives another answer.

mod factor;
mod load;
mod quiet;
mod side;

use super::chance::Chance;
use super::draft::Draft;
use crate::check::judge;
use crate::form::Form;
use crate::sheet::{Header, Record};
use crate::version::{Version, VERSIONS};
use factor::Inequality;
use load::Load;
use side::Side::{self, Meets, Misses};

#[derive(Clone, Copy)]
enum Aim {
    Factor(Inequality, i128, Side),
    Load(Load, i128, Side),
}

/// So many edges are sought for each aim, in each version in turn; then they come
/// round again.
const ROUNDS: usize = 2 * VERSIONS.len();

pub struct Edges {
    aims: Vec<Aim>,
    found: Vec<Draft>,
    handed_out: usize,
}

impl Edges {
    pub fn new() -> Edges {
        let mut aims = Vec::new();
        for side in [Misses, Meets] {
            for (inequality, kinds) in factor::AIMS {
                aims.extend(
                    kinds
                        .iter()
                        .map(|kind| Aim::Factor(*inequality, *kind, side)),
                );
            }
            for (load, kinds) in load::aims(side) {
                aims.extend(kinds.iter().map(|kind| Aim::Load(load, *kind, side)));
            }
        }
        Edges {
            aims,
            found: Vec::new(),
            handed_out: 0,
        }
    }

    /// The next sheet; each edge is sought when its turn comes.
    pub fn sheet(&mut self, chance: &mut Chance) -> &Draft {
        let place = self.handed_out % (ROUNDS * self.aims.len());
        self.handed_out += 1;
        if place == self.found.len() {
            let (round, aim) = (place / self.aims.len(), place % self.aims.len());
            let version = &VERSIONS[(round + aim) % VERSIONS.len()];
            self.found.push(sought(chance, self.aims[aim], version));
        }
        &self.found[place]
    }
}

/// Draws until an edge comes up whose record is answered as it should be: the
/// rules before are met and, where this one is met, those behind it as well.
fn sought(chance: &mut Chance, aim: Aim, version: &Version) -> Draft {
    loop {
        let (drawn, rule, side): (Option<(Form, Form)>, i128, Side) = match aim {
            Aim::Factor(inequality, kind, side) => {
                let drawn = factor::draw(chance, inequality, kind, side);
                (drawn, inequality.number(), side)
            }
            Aim::Load(load, kind, side) => {
                let drawn = load::draw(chance, load, kind, side);
                (drawn, if kind <= 4 { 2 } else { 5 }, side)
            }
        };
        let Some((header, record)) = drawn else {
            continue;
        };
        let header = in_version(version, &header, record.get("kind"), side);
        let named = judge(&Header::of(&header), &Record::of(&record)).rule;
        if named == (if side == Misses { rule } else { 0 }) {
            let records = vec![record];
            return Draft { header, records };
        }
    }
}

/// The header as one of this version. Where that has two moduli, the one that the
/// record answers to stays; by the other one, very great or very small, rule 3 is
/// answered otherwise.
fn in_version(version: &Version, header: &Form, kind: i128, side: Side) -> Form {
    let mut form = Form::blank(version.layout);
    for (name, _) in version.layout {
        if header.has(name) {
            form.set(name, header.get(name));
        }
    }
    form.set("version", version.number);
    if form.has("ZDB") {
        let modulus = header.get("ZB");
        let other = if side == Misses { 100_000_000 } else { 1 };
        let (ZB, ZDB) = if kind <= 2 {
            (modulus, other)
        } else {
            (other, modulus)
        };
        form.fill(&[("ZB", ZB), ("ZDB", ZDB), ("depth", 1000)]);
    }
    form
}
