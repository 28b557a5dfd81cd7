//! Deadwood that makes a row fall, or stay just level, at the first, an inner
//! or the last row; also below zero, and where it hangs on which way an exact half
//! goes.

use super::plan::Plan;
use super::sound;
use crate::deadwood::Deadwood;
use crate::dimensions::dimensions;
use crate::format::Format;
use crate::gross::Tank;
use crate::limits::DEADWOOD_VOLUME;
use crate::random::Random;
use crate::rows::row_heights;
use crate::survey::parse;

/// A survey whose deadwood takes, between one row and the next, as much as the
/// gross grows there, one more, one less, or far more; at one or two places.
pub fn falling(random: &mut Random, format: Format) -> Plan {
    with_items(random, format, |random, plan, grown| {
        (0..random.between(1, 2))
            .map(|_| item(random, plan, grown))
            .collect()
    })
}

/// A survey of which a row falls almost to zero, and the next one to zero or below.
pub fn below_zero(random: &mut Random, format: Format) -> Plan {
    with_items(random, format, emptying_items)
}

/// A survey of which a row falls or not by where an exact half goes.
pub fn at_half(random: &mut Random, format: Format) -> Plan {
    with_items(random, format, half_items)
}

/// A sound survey with deadwood that is chosen by how much the gross grows from
/// each row to the next.
fn with_items(
    random: &mut Random,
    format: Format,
    items: impl Fn(&mut Random, &Plan, &[u64]) -> Vec<Deadwood>,
) -> Plan {
    let mut plan = sound::sound(random, format);
    plan.survey.deadwood.clear();
    if let Some(grown) = growth(&plan) {
        plan.survey.deadwood = items(random, &plan, &grown);
    }
    plan.layout = sound::layout(random, &plan);
    plan
}

/// How much the gross grows from each row to the next, if the plan is sound.
fn growth(plan: &Plan) -> Option<Vec<u64>> {
    let survey = parse(&plan.encode(), plan.format).ok()?;
    let dimensions = dimensions(&survey).ok()?;
    let tank = Tank::new(&survey, dimensions);
    let gross: Vec<u64> = row_heights(plan.survey.dh, plan.survey.step)
        .into_iter()
        .map(|height| tank.gross(height))
        .collect();
    Some(gross.windows(2).map(|pair| pair[1] - pair[0]).collect())
}

/// An item over one gap.
fn item(random: &mut Random, plan: &Plan, grown: &[u64]) -> Deadwood {
    let last = grown.len() - 1;
    let index = match random.between(1, 3) {
        1 => 0,
        2 => last,
        _ => random.index(0, last),
    };
    let volume = grown[index] as i64 + random.pick(&[-1, 0, 0, 1, 1, 1, 5_000]);
    over_gaps(plan, index, 1, volume)
}

/// Deadwood over two gaps low in the tank. The first item leaves a little of what
/// the gross has grown by since row 0, the second one nothing, or takes more.
fn emptying_items(random: &mut Random, plan: &Plan, grown: &[u64]) -> Vec<Deadwood> {
    let index = random.index(1, 3);
    let since_row_0 = grown[..=index].iter().sum::<u64>() as i64;
    let left = random.pick(&[0, 0, 1, 7]);
    let below = random.pick(&[0, 1, 1, 5_000]);
    vec![
        over_gaps(plan, index, 1, since_row_0 - left),
        over_gaps(plan, index + 1, 1, grown[index + 1] as i64 + left + below),
    ]
}

/// Deadwood over two gaps in the lower half of the tank, where the next gap grows
/// by more. The gross grows by g up to the row in the middle, and so much and a
/// half is taken there: the row stays level if g is even. Or g and a + 1 more is
/// taken and a half above a is added: the row falls if a is even.
fn half_items(random: &mut Random, plan: &Plan, grown: &[u64]) -> Vec<Deadwood> {
    let index = random.index(0, grown.len() / 2 - 2);
    let g = grown[index] as i64;
    if random.one_in(2) {
        return vec![over_gaps(plan, index, 2, 2 * g + 1)];
    }
    let a = i64::from(random.between(0, 9));
    vec![
        over_gaps(plan, index, 1, g + a + 1),
        over_gaps(plan, index, 2, -(2 * a + 1)),
    ]
}

/// An item from one row to the next, or over more gaps.
fn over_gaps(plan: &Plan, index: usize, gaps: usize, volume: i64) -> Deadwood {
    let heights = row_heights(plan.survey.dh, plan.survey.step);
    Deadwood {
        low: heights[index],
        high: heights[index + gaps],
        volume: volume.min(i64::from(DEADWOOD_VOLUME)) as i32,
    }
}
