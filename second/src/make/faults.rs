//! Records as numbers, sound or at fault. A number has room for far more than
//! its field, so a field can also be at fault in bits that a sheet has not.

use super::chance::Chance;
use super::record;
use crate::form::{Form, RECORD_NUMBERS};
use crate::limits::in_record;

pub type Numbers = [u32; RECORD_NUMBERS];

/// Kinds that no record has; the wider ones end in the bits of a kind.
const NO_KINDS: [u32; 9] = [0, 9, 10, 15, 16 + 2, 256 + 5, 300, 65_536 + 1, u32::MAX];

/// What can stand past a plate's cargo; one pair adds up to 0 in 32 bits.
const NOT_ZERO: [[u32; 2]; 5] = [[1, 0], [0, 1], [u32::MAX, 1], [1 << 20, 0], [0, u32::MAX]];

/// The faults come round for each kind, so that some thousand records bring up
/// every one of them.
#[derive(Default)]
pub struct Faults {
    next: [usize; 9],
}

impl Faults {
    /// A record of this id for the vessel, as numbers.
    pub fn numbers(&mut self, chance: &mut Chance, header: &Form, id: i128) -> Numbers {
        let form = record::record(chance, header, id);
        let sound = numbers_of(&form);
        match chance.below(24) {
            0 => {
                // Data of another kind, or of the other layout.
                let mut other = sound;
                other[0] = chance.between(1, 8) as u32;
                other
            }
            1 => {
                let all = faulty(&form);
                let (one, two) = (chance.of(&all), chance.of(&all));
                std::array::from_fn(|index| {
                    if one[index] == sound[index] {
                        two[index]
                    } else {
                        one[index]
                    }
                })
            }
            2..6 => {
                let next = &mut self.next[form.get("kind") as usize];
                let all = faulty(&form);
                let one = all[*next % all.len()];
                *next += 1;
                one
            }
            _ => sound,
        }
    }
}

fn numbers_of(form: &Form) -> Numbers {
    let mut numbers = [0; RECORD_NUMBERS];
    for (number, value) in numbers.iter_mut().zip(&form.values) {
        *number = *value as u32;
    }
    numbers
}

/// The record with one field changed, in every way: at and past each end of its
/// values, and with one bit or all bits above its own. Some stay sound.
fn faulty(form: &Form) -> Vec<Numbers> {
    let sound = numbers_of(form);
    let mut all = Vec::new();
    let mut with = |index: usize, changed: &[u32]| {
        let mut numbers = sound;
        numbers[index..index + changed.len()].copy_from_slice(changed);
        all.push(numbers);
    };
    for (index, (name, width)) in form.layout.iter().enumerate() {
        match *name {
            "kind" => NO_KINDS.iter().for_each(|kind| with(index, &[*kind])),
            "zero" => NOT_ZERO.iter().for_each(|pair| with(index, pair)),
            _ => {
                let allowed = in_record(form, name);
                let (lowest, highest) = (allowed.lowest(), allowed.highest());
                for value in [lowest - 1, lowest, highest, highest + 1] {
                    with(index, &[value.max(0) as u32]);
                }
                for above in [1 << width, 1 << 16, 1 << 31] {
                    with(index, &[sound[index] | above]);
                }
                with(index, &[u32::MAX]);
            }
        }
    }
    all
}
