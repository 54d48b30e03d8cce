//! Which side of an inequality a record is on, and whether it stands at its edge.

#[derive(Clone, Copy, PartialEq, Eq)]
pub enum Side {
    Misses,
    Meets,
}

/// Whether a x >= b y is on the side asked for, and one more or one less in a, and
/// in b, would put it on the other.
pub fn at_edge(a: i128, x: i128, b: i128, y: i128, side: Side) -> bool {
    let over = a * x - b * y;
    let step = x.min(y);
    match side {
        Side::Misses => -step <= over && over < 0,
        Side::Meets => 0 <= over && over < step,
    }
}
