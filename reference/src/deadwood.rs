//! Fittings ("deadwood") and the shares they take.

use crate::heights::DipHeight;
use crate::numbers::Quotient;

/// "A deadwood item is 12 bytes: low height, high height (both dip heights),
/// signed volume"; "positive takes room away, negative adds it".
#[derive(Clone, Copy, Debug, PartialEq, Eq)]
pub struct Deadwood {
    pub low: DipHeight,
    pub high: DipHeight,
    pub volume: i32,
}

/// "Each deadwood item takes nothing at or below its low height, all of it at
/// or above its high height, and between them the share in proportion. The
/// share is the nearest v of the size, the sign put on afterwards."
pub fn share(item: &Deadwood, height: DipHeight) -> i64 {
    let size = size_of_share(item, height).nearest() as i64;
    if item.volume < 0 {
        -size
    } else {
        size
    }
}

/// The size of the share, unrounded. No more of an item is covered than there is.
pub fn size_of_share(item: &Deadwood, height: DipHeight) -> Quotient {
    let covered = height.clamp(item.low, item.high).0 - item.low.0;
    Quotient {
        top: u128::from(item.volume.unsigned_abs()) * u128::from(covered),
        bottom: u128::from(item.high.0 - item.low.0),
    }
}

/// All shares at a height, added up.
pub fn all_shares(items: &[Deadwood], height: DipHeight) -> i64 {
    items.iter().map(|item| share(item, height)).sum()
}
