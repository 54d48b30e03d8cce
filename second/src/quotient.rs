//! A quotient with its remainder, of a numerator of 0 or more.

#[derive(Clone, Copy, Debug, PartialEq, Eq)]
pub struct Quotient {
    /// Rounded down.
    pub whole: i128,
    pub remainder: i128,
}

impl Quotient {
    pub fn of(numerator: i128, denominator: i128) -> Quotient {
        Quotient {
            whole: numerator / denominator,
            remainder: numerator % denominator,
        }
    }

    /// Rounded up.
    pub fn up(self) -> i128 {
        self.whole + i128::from(self.remainder > 0)
    }
}
