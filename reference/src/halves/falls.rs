//! Whether a row falls can hang on where a half goes: for counting how often that
//! was tried.

use super::Rounded::{self, DeadwoodTaken};
use super::{in_row, Half};
use crate::counted::counted;
use crate::gross::Tank;
use crate::rows::row_heights;
use crate::table::net_rows;

counted! {
    /// A tank that refusal 9 would judge otherwise if its rows' halves went up.
    pub enum Fall {
        Kept => "no row falls, one would if halves went up",
        Made => "a row falls, none would if halves went up",
    }
}

impl Fall {
    /// Which of the two a tank is, if either.
    pub fn of_tank(tank: &Tank) -> Option<Fall> {
        let net = net_rows(tank);
        let heights = row_heights(tank.survey.dh, tank.survey.step);
        let up: Vec<i64> = net
            .iter()
            .zip(heights)
            .map(|(row, height)| row + in_row(tank, height).map(raised).sum::<i64>())
            .collect();
        match (net.is_sorted(), up.is_sorted()) {
            (true, false) => Some(Fall::Kept),
            (false, true) => Some(Fall::Made),
            _ => None,
        }
    }
}

/// How much higher a row would be if this half went up: what deadwood takes away
/// is deducted from it.
fn raised((rounded, half): (Rounded, Half)) -> i64 {
    match (half, rounded) {
        (Half::Up, _) => 0,
        (Half::Down, DeadwoodTaken) => -1,
        (Half::Down, _) => 1,
    }
}
