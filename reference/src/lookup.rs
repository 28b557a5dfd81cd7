//! "Lookups". Refusals 11 to 13.
//!
//! "Both take DH, step and a lent table of exactly the row count; heights and
//! volumes asked for are unsigned 32-bit numbers."

use crate::limits;
use crate::numbers::Quotient;
use crate::refusal::{refuse, Refusal};
use crate::rows::row_count;

/// "Litres at height h: the row itself, or on the straight line between
/// neighbour rows, nearest v."
pub fn litres_at_height(dh: u32, step: u32, table: &[u32], height: u32) -> Result<u32, Refusal> {
    check_table(dh, step, table)?;
    // Refusal 12: "height above DH".
    if height > dh {
        return Err(refuse(12));
    }
    Ok(litres(dh, step, table, height))
}

/// "Height for volume w: the lowest h from 0 to DH whose litres are at least
/// w."
pub fn height_for_volume(dh: u32, step: u32, table: &[u32], volume: u32) -> Result<u32, Refusal> {
    check_table(dh, step, table)?;
    // Refusal 13: "volume above the last row".
    if volume > table[table.len() - 1] {
        return Err(refuse(13));
    }
    let lowest = (0..=dh).find(|&height| litres(dh, step, table, height) >= volume);
    Ok(lowest.expect("the litres at DH are the last row, which is at least the volume"))
}

/// What was delivered between two dip heights: the litres at the height after
/// less those at the height before. The first refusal of the two, if any.
pub fn delivered(
    dh: u32,
    step: u32,
    table: &[u32],
    before: u32,
    after: u32,
) -> Result<i64, Refusal> {
    let litres_before = litres_at_height(dh, step, table, before)?;
    let litres_after = litres_at_height(dh, step, table, after)?;
    Ok(i64::from(litres_after) - i64::from(litres_before))
}

/// Refusal 11: "DH or step outside limits, wrong row count, or a row falls".
fn check_table(dh: u32, step: u32, table: &[u32]) -> Result<(), Refusal> {
    if !limits::DH.allow(dh) || !limits::STEP.allow(step) {
        return Err(refuse(11));
    }
    if table.len() != row_count(dh, step) {
        return Err(refuse(11));
    }
    if table.windows(2).any(|pair| pair[1] < pair[0]) {
        return Err(refuse(11));
    }
    Ok(())
}

/// The litres at a height from 0 to DH of a table that has been checked.
fn litres(dh: u32, step: u32, table: &[u32], height: u32) -> u32 {
    Gap::around(dh, step, table, height).at(height).nearest() as u32
}

/// Two neighbour rows and the heights at which they stand.
#[derive(Clone, Copy, Debug, PartialEq, Eq)]
pub struct Gap {
    pub low_height: u32,
    pub high_height: u32,
    pub low_row: u32,
    pub high_row: u32,
}

impl Gap {
    /// The gap of a table that has been checked in which a height from 0 to DH
    /// lies: the one above a row, of the last row the one below. The last two
    /// rows may stand closer together than a step.
    pub fn around(dh: u32, step: u32, table: &[u32], height: u32) -> Gap {
        let index = (height / step).min(table.len() as u32 - 2);
        let low_height = index * step;
        Gap {
            low_height,
            high_height: (low_height + step).min(dh),
            low_row: table[index as usize],
            high_row: table[index as usize + 1],
        }
    }

    /// The litres on the straight line at a height in the gap, unrounded; at
    /// either end the row itself.
    pub fn at(self, height: u32) -> Quotient {
        let over = |row: u32, length: u32| u128::from(row) * u128::from(length);
        Quotient {
            top: over(self.low_row, self.high_height - height)
                + over(self.high_row, height - self.low_height),
            bottom: u128::from(self.high_height - self.low_height),
        }
    }
}
