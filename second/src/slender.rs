//! Length over depth (Ch 2 Sec 2 [2.1.3]): a hull beyond the limit of its range of
//! navigation is considered separately, so that its sheet is turned away.

use crate::sheet::Header;

/// How many times its depth a hull may be long in waves of this height, in cm; without
/// waves nothing is tested.
pub fn greatest_ratio(H: i128) -> Option<i128> {
    match H {
        0 => None,
        60 => Some(35),
        _ => Some(25),
    }
}

/// Only where the header has a depth.
pub fn is_too_slender(header: &Header) -> bool {
    match (header.depth(), greatest_ratio(header.H)) {
        (Some(depth), Some(ratio)) => header.L > ratio * depth,
        _ => false,
    }
}
