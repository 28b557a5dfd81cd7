//! Cases for the two lookups: sound tables with levels, steep rises, the largest
//! cells and exact halves, and tables that refusals 11 to 13 shut out.

use super::halves;
use crate::limits;
use crate::lookup::{height_for_volume, litres_at_height};
use crate::random::Random;
use crate::refusal::Refusal;
use crate::rows::row_count;

/// What is asked of a table: the litres at a height, or the lowest height for
/// a volume.
#[derive(Clone, Copy, Debug, PartialEq, Eq)]
pub enum Asked {
    Litres(u32),
    Height(u32),
}

/// A lookup: DH, step, the table and what is asked.
#[derive(Clone, Debug, PartialEq, Eq)]
pub struct LookupCase {
    pub dh: u32,
    pub step: u32,
    pub table: Vec<u32>,
    pub asked: Asked,
}

impl LookupCase {
    /// What this program answers.
    pub fn answer(&self) -> Result<u32, Refusal> {
        match self.asked {
            Asked::Litres(height) => litres_at_height(self.dh, self.step, &self.table, height),
            Asked::Height(volume) => height_for_volume(self.dh, self.step, &self.table, volume),
        }
    }
}

/// Lookup case `number` of a seed.
pub fn lookup_case(seed: u64, number: u64) -> LookupCase {
    let random = &mut Random::for_case(seed, number);
    let dh = sound_dh(random);
    let step = sound_step(random);
    let mut case = LookupCase {
        dh,
        step,
        table: rising(random, row_count(dh, step)),
        asked: Asked::Litres(0),
    };
    case.asked = asked(random, &case);
    if random.one_in(3) {
        halves::lookups::ask(random, &mut case);
    }
    if random.one_in(4) {
        damage(random, &mut case);
    }
    case
}

fn sound_dh(random: &mut Random) -> u32 {
    match random.between(1, 20) {
        1..=3 => limits::DH.low,
        4 => limits::DH.high,
        5 => random.between(limits::DH.low, limits::DH.high),
        _ => random.between(50_000, 60_000),
    }
}

fn sound_step(random: &mut Random) -> u32 {
    match random.between(1, 20) {
        1 => limits::STEP.low,
        2..=4 => limits::STEP.high,
        _ => random.between(500, 10_000),
    }
}

/// Rows that do not fall.
fn rising(random: &mut Random, count: usize) -> Vec<u32> {
    let mut row: u32 = random.pick(&[0, 0, 0, 1, 5_000]);
    let most = random.pick(&[0, 1, 10, 5_000, 5_000, 300_000, 1_000_000_000]);
    let mut rows = Vec::new();
    for _ in 0..count {
        rows.push(row);
        if !random.one_in(5) {
            row = row.saturating_add(random.between(0, most));
        }
    }
    if random.one_in(20) {
        rows[count - 1] = u32::MAX;
    }
    rows
}

fn asked(random: &mut Random, case: &LookupCase) -> Asked {
    let index = random.index(0, case.table.len() - 1);
    if random.one_in(2) {
        let row_height = (index as u32 * case.step).min(case.dh);
        Asked::Litres(match random.between(1, 9) {
            1 => 0,
            2 => case.dh,
            3 => case.dh + 1,
            4 => u32::MAX,
            5 => row_height,
            6 => row_height.saturating_sub(1),
            7 => case.dh - 1,
            _ => random.between(0, case.dh),
        })
    } else {
        let last = case.table[case.table.len() - 1];
        let row = case.table[index];
        Asked::Height(match random.between(1, 9) {
            1 => 0,
            2 => last,
            3 => last.saturating_add(1),
            4 => u32::MAX,
            5 => row,
            6 => row.saturating_add(1),
            7 => row.saturating_sub(1),
            _ => random.between(0, last),
        })
    }
}

/// Makes refusal 11 likely.
fn damage(random: &mut Random, case: &mut LookupCase) {
    let last = case.table.len() - 1;
    match random.between(1, 7) {
        1 => case.dh = past(random, limits::DH),
        2 => case.step = past(random, limits::STEP),
        3 => case.table.truncate(last),
        4 => case.table.push(u32::MAX),
        5 => case.table.clear(),
        _ => {
            let index = match random.between(1, 3) {
                1 => 1,
                2 => last,
                _ => random.index(1, last),
            };
            case.table[index] = case.table[index - 1].saturating_sub(random.between(0, 2));
        }
    }
}

fn past(random: &mut Random, limits: limits::Limits) -> u32 {
    random.pick(&[limits.low - 1, limits.high + 1, 0, 1, u32::MAX])
}
