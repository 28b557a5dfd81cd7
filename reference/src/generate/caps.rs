//! Spherical caps: the lengths of sound ones, and surveys whose caps are the
//! longest that D2 allows, one past that, or longer.

use super::plan::Plan;
use super::{diameters, sound};
use crate::dimensions::{end_outer_diameter, longest_cap, wall};
use crate::format::Format;
use crate::limits::{L3_CURVED, SPHERICAL_CAP};
use crate::random::Random;

/// Short caps take few cells: no longer than this in most surveys.
const SHORT: u32 = 2_000;
/// The largest D2 at which long caps do not take too many cells either.
const SMALL_D2: u32 = 120_000;

/// A length of sound caps: around 1 mm, of whole mm or cut short, now and then
/// a long one.
pub fn sound_length(random: &mut Random, d2: u32) -> u32 {
    let longest = longest(random, d2);
    match random.between(1, 24) {
        1 => 1,
        2 => 99,
        3 => 100,
        4 => 101,
        5..=6 => longest,
        7 => random.between(1, longest),
        8..=10 => 100 * random.between(1, SHORT / 100),
        11..=16 => random.between(1, 300),
        _ => random.between(1, SHORT),
    }
}

/// The longest caps that D2 allows; of a large tank seldom more than short
/// ones.
fn longest(random: &mut Random, d2: u32) -> u32 {
    if d2 <= SMALL_D2 || random.one_in(10) {
        longest_cap(d2)
    } else {
        SHORT
    }
}

/// Refusal 14 and its edges. One in four has a diameter at its limits too, for
/// the order of refusals 7 and 14.
pub fn at_longest(random: &mut Random, format: Format) -> Plan {
    let mut plan = if random.one_in(4) {
        diameters::at_limits(random, format)
    } else {
        sound::sound(random, format)
    };
    let d2 = end_outer_diameter(plan.survey.left, plan.survey.right) - wall(&plan.survey.courses);
    let d2 = u32::try_from(d2).expect("planned diameters are near their limits");
    let one_past = longest_cap(d2) + 1;
    plan.survey.kind = SPHERICAL_CAP;
    plan.survey.l3 = match random.between(1, 8) {
        1 => longest(random, d2),
        2..=5 => one_past,
        6..=7 => random.between(one_past, L3_CURVED.high),
        _ => L3_CURVED.high,
    };
    plan
}
