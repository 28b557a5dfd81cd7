//! "A dip height and a shell height are distinct quantities and one is never
//! accepted for the other."

use crate::numbers::half_down;

/// A height on the dip stick, from 0 to DH.
#[derive(Clone, Copy, Debug, PartialEq, Eq, PartialOrd, Ord)]
pub struct DipHeight(pub u32);

/// A height inside a part of diameter D, from 0 to D.
#[derive(Clone, Copy, Debug, PartialEq, Eq, PartialOrd, Ord)]
pub struct ShellHeight(pub u32);

/// "H1 = H + (D1 - DH)/2 and H2 = H + (D2 - DH)/2. The half is rounded down.
/// Then H1 is held within 0 to D1 and H2 within 0 to D2."
pub fn corrected(height: DipHeight, diameter: u32, dh: u32) -> ShellHeight {
    let half = half_down(i64::from(diameter) - i64::from(dh));
    let free = i64::from(height.0) + half;
    let held = free.clamp(0, i64::from(diameter));
    ShellHeight(held as u32)
}
