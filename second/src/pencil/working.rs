//! The working of one rule: its lines down to the last step, and what they come to.

use super::root::root;
use crate::quotient::Quotient;

pub struct Working {
    pub text: String,
    pub right: Right,
}

/// What the right side comes to, rounded up.
pub enum Right {
    /// There is no number of the gauge, and the lines say why.
    Nothing,
    Square(Square),
    /// The scantling is at least so much.
    Plain(i128),
}

impl Right {
    /// The scantling that it comes to, before the test.
    pub fn first(&self) -> Option<i128> {
        match self {
            Right::Nothing => None,
            Right::Square(square) => Some(square.sum().up()),
            Right::Plain(n) => Some(*n),
        }
    }
}

/// X² is at least n, X being so many times T (`step`) less what is short.
pub struct Square {
    pub n: i128,
    pub step: i128,
    pub short: i128,
}

impl Square {
    /// T² is at least n.
    pub fn of_T(n: i128) -> Square {
        let (step, short) = (1, 0);
        Square { n, step, short }
    }

    pub fn is_of_T(&self) -> bool {
        self.step == 1
    }

    pub fn X(&self, T: i128) -> i128 {
        self.step * T - self.short
    }

    pub fn root(&self) -> i128 {
        root(self.n)
    }

    /// The root and what is short over the step.
    pub fn sum(&self) -> Quotient {
        Quotient::of(self.root() + self.short, self.step)
    }
}
