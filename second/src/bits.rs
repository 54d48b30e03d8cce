//! Bits of a byte string, the most significant bit of each byte first.

pub struct BitReader<'a> {
    bytes: &'a [u8],
    taken: usize,
}

impl<'a> BitReader<'a> {
    pub fn new(bytes: &'a [u8]) -> Self {
        BitReader { bytes, taken: 0 }
    }

    /// The next `width` bits as a number. Bit by bit: no shifts over byte
    /// borders that could be got wrong.
    pub fn take(&mut self, width: u32) -> i128 {
        let mut value = 0;
        for _ in 0..width {
            let byte = self.bytes[self.taken / 8];
            let bit = (byte >> (7 - self.taken % 8)) & 1;
            value = 2 * value + i128::from(bit);
            self.taken += 1;
        }
        value
    }
}

#[derive(Default)]
pub struct BitWriter {
    bytes: Vec<u8>,
    put: usize,
}

impl BitWriter {
    /// Puts `value` into the next `width` bits; it must fit them.
    pub fn put(&mut self, value: i128, width: u32) {
        assert!(
            (0..1 << width).contains(&value),
            "{value} does not fit {width} bits"
        );
        for place in (0..width).rev() {
            if self.put.is_multiple_of(8) {
                self.bytes.push(0);
            }
            let bit = (value >> place & 1) as u8;
            self.bytes[self.put / 8] |= bit << (7 - self.put % 8);
            self.put += 1;
        }
    }

    pub fn into_bytes(self) -> Vec<u8> {
        self.bytes
    }
}
