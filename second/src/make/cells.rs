//! What can stand in a field of a text in place of its number.

use super::chance::Chance;

/// Bytes that stand in no number: some lie just beside the digits, some are a digit but
/// for a bit.
const NO_DIGITS: &[u8] = b"/:;.-+ \t\r\0eXo'_\x0b\x1f\xa0\xb0\xb9\xff";

/// Bytes that stand in a field only within quotes.
const WITHIN_QUOTES: [&[u8]; 7] = [b"\"", b",", b"\n", b"\r\n", b"\"\"", b"\",\"", b"\"\r\n"];

/// Not in plain decimal, or nothing.
const NOT_PLAIN: [&[u8]; 12] = [
    b"",
    b"",
    b"",
    b"00",
    b"-0",
    b"0x10",
    b"1e3",
    b"1.0",
    b"1_000",
    b"NaN",
    "²".as_bytes(),
    "٣".as_bytes(),
];

const BYTE_ORDER_MARK: &[u8] = b"\xef\xbb\xbf";

/// At and past 128 and 256 bits.
const FAR: [&str; 4] = [
    "340282366920938463463374607431768211455",
    "340282366920938463463374607431768211456",
    "340282366920938463463374607431768211457",
    "115792089237316195423570985008687907853269984665640564039457584007913129639937",
];

/// The number in other than its own writing, or something else.
pub fn no_number(chance: &mut Chance, value: i128) -> Vec<u8> {
    let digits = value.to_string().into_bytes();
    let anywhere = chance.below(digits.len() + 1);
    let (place, more) = match chance.below(8) {
        0 => return chance.of(&NOT_PLAIN).to_vec(),
        1 => (0, &b"0"[..]),
        2 => (0, &chance.of(&[b"+", b"-"])[..]),
        3 => (0, BYTE_ORDER_MARK),
        4 | 5 => (anywhere, *chance.of(&WITHIN_QUOTES)),
        _ => (anywhere, std::slice::from_ref(chance.of(NO_DIGITS))),
    };
    [&digits[..place], more, &digits[place..]].concat()
}

/// The least number that the bits do not hold, and greater ones: with the low bits of the
/// value or of the greatest that they hold, in any width, or of many digits.
pub fn too_wide(chance: &mut Chance, value: i128, bits: u32) -> Vec<u8> {
    let least: i128 = 1 << bits;
    let above: i128 = 1 << chance.of(&[bits, bits + 1, 16, 32, 64, 96]).max(&bits);
    let number = match chance.below(7) {
        0 => least.to_string(),
        1 => (above + least - 1).to_string(),
        2 => (10 * least).to_string(),
        3 => "9".repeat(9 + chance.below(60)),
        4 => chance.of(&FAR).to_string(),
        _ => (above + value % least).to_string(),
    };
    number.into_bytes()
}
