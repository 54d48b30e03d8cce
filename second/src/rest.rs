//! What is left of a stream: bytes are taken off its front, and numbers of four bytes,
//! most significant first.

/// A length or size above this is taken for a broken stream.
pub const LONGEST: usize = 65_536;
const NUMBER_BYTES: usize = 4;

pub struct Rest<'a>(&'a [u8]);

impl<'a> Rest<'a> {
    pub fn new(stream: &'a [u8]) -> Rest<'a> {
        Rest(stream)
    }

    pub fn is_empty(&self) -> bool {
        self.0.is_empty()
    }

    /// None if so many are not there.
    pub fn bytes(&mut self, count: usize) -> Option<&'a [u8]> {
        let (taken, rest) = self.0.split_at_checked(count)?;
        self.0 = rest;
        Some(taken)
    }

    /// As many as a length says, if it is not above the longest.
    pub fn bytes_of(&mut self, length: u32) -> Option<&'a [u8]> {
        let length = length as usize;
        if length > LONGEST {
            return None;
        }
        self.bytes(length)
    }

    pub fn numbers<const COUNT: usize>(&mut self) -> Option<[u32; COUNT]> {
        let bytes = self.bytes(NUMBER_BYTES * COUNT)?;
        let mut numbers = [0; COUNT];
        for (number, bytes) in numbers.iter_mut().zip(bytes.chunks(NUMBER_BYTES)) {
            *number = bytes
                .iter()
                .fold(0, |sum, byte| 256 * sum + u32::from(*byte));
        }
        Some(numbers)
    }
}

/// Numbers as they stand in a stream.
pub fn framed<const COUNT: usize>(numbers: [u32; COUNT]) -> Vec<u8> {
    numbers.map(u32::to_be_bytes).concat()
}

/// The length of what is to stand behind it.
pub fn length(bytes: &[u8]) -> u32 {
    assert!(bytes.len() <= LONGEST);
    bytes.len() as u32
}
