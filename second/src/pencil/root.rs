//! The whole root of a number.

/// Its highest bit; every number under 2^126 has a root of no more.
const HIGHEST_BIT: u32 = 62;

/// Rounded down: bit by bit from the highest, each one that leaves the square at or under
/// the number.
pub fn root(number: i128) -> i128 {
    let bits = (0..=HIGHEST_BIT).rev().map(|place| 1 << place);
    bits.fold(0, |root: i128, bit: i128| {
        let longer = root + bit;
        if longer * longer <= number {
            longer
        } else {
            root
        }
    })
}

#[cfg(test)]
mod tests {
    use super::*;

    #[test]
    fn a_root_turns_at_a_square() {
        assert_eq!([0, 1, 2, 3, 4].map(root), [0, 1, 1, 1, 2]);
        for whole in [2, 3, 616, 4000, 24_000, 1_000_000_007, (1 << 63) - 1] {
            let square = whole * whole;
            let around = [square - 1, square, square + 1].map(root);
            assert_eq!(around, [whole - 1, whole, whole]);
        }
    }
}
