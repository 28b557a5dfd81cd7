//! Deadwood of which a row takes an exact half.

use super::factor_of_half;
use crate::deadwood::{size_of_share, Deadwood};
use crate::generate::plan::Plan;
use crate::generate::sound;
use crate::heights::DipHeight;
use crate::limits::{Limits, DEADWOOD_VOLUME};
use crate::random::Random;
use crate::rows::row_heights;

/// The most items that are added.
const MOST: u32 = 5;

/// Adds such items to a survey: some that take room away, so little that hardly
/// ever a row falls, and some that add any room.
pub fn add(random: &mut Random, plan: &mut Plan) {
    for _ in 0..random.between(1, MOST) {
        if let Some(item) = item(random, plan) {
            plan.survey.deadwood.push(item);
        }
    }
    plan.layout = sound::layout(random, plan);
}

/// An item around a row in the middle of the tank, there and in its neighbourhood
/// small beside the shell if it takes room away. If its heights are such that no
/// volume gives a half, it is not made.
fn item(random: &mut Random, plan: &Plan) -> Option<Deadwood> {
    let dh = plan.survey.dh;
    let rows: Vec<DipHeight> = row_heights(dh, plan.survey.step)
        .into_iter()
        .filter(|row| (dh / 4..=dh / 4 * 3).contains(&row.0))
        .collect();
    let row = random.pick(&rows);
    let [below, above] = reaches(random, dh / 8);
    let one = Deadwood {
        low: DipHeight(row.0 - below),
        high: DipHeight(row.0 + above),
        volume: 1,
    };
    let takes = random.one_in(2);
    let most = if takes {
        sound::small_volume(plan, below + above, MOST)
    } else {
        DEADWOOD_VOLUME as u32
    };
    let limits = Limits { low: 1, high: most };
    let size = factor_of_half(random, size_of_share(&one, row), limits)? as i32;
    Some(Deadwood {
        volume: if takes { size } else { -size },
        ..one
    })
}

/// How far an item reaches below its row and above: as far, one or three quarters
/// of it, or anyhow.
fn reaches(random: &mut Random, most: u32) -> [u32; 2] {
    let reach = random.between(1, most / 3);
    match random.between(1, 6) {
        1 => [reach, 3 * reach],
        2 => [3 * reach, reach],
        3 => [reach, random.between(1, most)],
        _ => [reach, reach],
    }
}
