//! Lookups at exact halves on the line between two rows.

use super::factor_of_half;
use crate::generate::lookups::{Asked, LookupCase};
use crate::limits::Limits;
use crate::lookup::Gap;
use crate::numbers::Quotient;
use crate::random::Random;

/// Lets two neighbour rows of a case's table have an exact half between them, if
/// they stand so that there can be one, and asks for it: the litres there, or the
/// height for a volume that the half reaches or just does not. Rows above do not
/// fall then either.
pub fn ask(random: &mut Random, case: &mut LookupCase) {
    let last = case.table.len() - 2;
    let index = match random.between(1, 3) {
        1 => last,
        _ => random.index(0, last),
    };
    let bottom = index as u32 * case.step;
    let gap = Gap::around(case.dh, case.step, &case.table, bottom);
    let height = height_in(random, gap);
    let limits = Limits {
        low: 0,
        high: u32::MAX - gap.low_row,
    };
    let one = Quotient {
        top: u128::from(height - gap.low_height),
        bottom: u128::from(gap.high_height - gap.low_height),
    };
    let Some(rise) = factor_of_half(random, one, limits) else {
        return;
    };
    let high_row = gap.low_row + rise;
    case.table[index + 1] = high_row;
    for row in &mut case.table[index + 1..] {
        *row = high_row.max(*row);
    }
    let half = Gap { high_row, ..gap }.at(height);
    let whole = (half.top / half.bottom) as u32;
    case.asked = match random.between(1, 4) {
        1 => Asked::Height(whole),
        2 => Asked::Height(whole + 1),
        _ => Asked::Litres(height),
    };
}

/// The middle of a gap, a quarter of it or three, or any height in it.
fn height_in(random: &mut Random, gap: Gap) -> u32 {
    let span = gap.high_height - gap.low_height;
    let quarters = match random.between(1, 6) {
        1 => 1,
        2 => 3,
        3 => return random.between(gap.low_height, gap.high_height),
        _ => 2,
    };
    gap.low_height + span * quarters / 4
}
