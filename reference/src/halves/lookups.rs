//! Exact halves on the line between two rows, and what lookups make of them.

use super::Half;
use crate::counted::counted;
use crate::generate::lookups::{Asked, LookupCase};
use crate::lookup::Gap;
use std::cmp::Ordering;

counted! {
    /// An answer that an exact half decided. A half above an odd row tells the value
    /// on the line, which is rounded, from what it has risen above that row.
    pub enum Looked {
        AboveEven => "litres above an even row",
        AboveOdd => "litres above an odd row",
        Middle => "litres in the middle of a gap",
        OffMiddle => "litres elsewhere in a gap",
        ShortGap => "litres in a last, shorter gap",
        Height => "a height",
    }
}

use Looked::*;

impl Looked {
    /// All that a lookup tries, given its answer.
    pub fn of_lookup(case: &LookupCase, figure: u32) -> Vec<(Looked, Half)> {
        match case.asked {
            Asked::Litres(height) => of_litres(case, height),
            Asked::Height(volume) => of_height(case, volume, figure),
        }
    }
}

fn of_litres(case: &LookupCase, height: u32) -> Vec<(Looked, Half)> {
    let gap = gap(case, height);
    let Some(half) = gap.at(height).half() else {
        return Vec::new();
    };
    let parity = if gap.low_row.is_multiple_of(2) {
        AboveEven
    } else {
        AboveOdd
    };
    let place = match (height - gap.low_height).cmp(&(gap.high_height - height)) {
        Ordering::Equal => Middle,
        _ => OffMiddle,
    };
    let short = (gap.high_height - gap.low_height < case.step).then_some(ShortGap);
    [parity, place]
        .into_iter()
        .chain(short)
        .map(|looked| (looked, half))
        .collect()
}

/// The lowest height for a volume is where a half goes up to it, or right above
/// where a half goes down from it.
fn of_height(case: &LookupCase, volume: u32, lowest: u32) -> Vec<(Looked, Half)> {
    let goes = |height: u32, wanted: Half, to: u32| {
        let line = gap(case, height).at(height);
        line.half() == Some(wanted) && line.nearest() == u128::from(to)
    };
    if goes(lowest, Half::Up, volume) {
        vec![(Height, Half::Up)]
    } else if lowest > 0 && goes(lowest - 1, Half::Down, volume - 1) {
        vec![(Height, Half::Down)]
    } else {
        Vec::new()
    }
}

fn gap(case: &LookupCase, height: u32) -> Gap {
    Gap::around(case.dh, case.step, &case.table, height)
}
