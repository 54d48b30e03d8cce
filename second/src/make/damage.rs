//! Texts that something has happened to on their way, byte by byte.

use super::chance::Chance;

/// Bytes that a text turns on, and some that it never has.
const TELLING: &[u8] = b"\"\"\"\",,,\r\r\n\n\n0019 -+./:;\0\xff";

/// What texts of no meaning are made of.
const ALPHABET: &[u8] = b"0123456789,,,\"\"\"\r\n\n";

/// Bytes changed, taken out or put in, or an end that is not there.
pub fn bytes(chance: &mut Chance, text: &mut Vec<u8>) {
    for _ in 0..*chance.of(&[1, 1, 1, 2, 4]) {
        let place = chance.below(text.len().max(1));
        let byte = *chance.of(TELLING);
        match chance.below(4) {
            0 if place < text.len() => text[place] = byte,
            1 if place < text.len() => {
                text.remove(place);
            }
            2 => text.truncate(place),
            _ => text.insert(place.min(text.len()), byte),
        }
    }
}

/// Ends within the quotes of a field, if there are any.
pub fn broken_off(chance: &mut Chance, text: &mut Vec<u8>) {
    let quotes = (0..text.len()).filter(|place| text[*place] == b'"');
    let opening: Vec<usize> = quotes.step_by(2).collect();
    if !opening.is_empty() {
        let place = *chance.of(&opening);
        text.truncate(place + 1 + chance.below(3));
    }
}

pub fn no_meaning(chance: &mut Chance) -> Vec<u8> {
    let longest = *chance.of(&[3, 10, 60]);
    let length = chance.below(longest);
    (0..length).map(|_| *chance.of(ALPHABET)).collect()
}
