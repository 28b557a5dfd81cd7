//! Circumferences for a wished outer diameter, and surveys with diameters at
//! their limits and just past them.

use super::plan::Plan;
use super::{seams, sound};
use crate::dimensions::end_outer_diameter;
use crate::format::Format;
use crate::limits::{CIRCUMFERENCE, DIAMETER};
use crate::random::Random;
use crate::survey::Course;

/// Two circumferences of which 113·(sum)/710 is nearest to the outer
/// diameter, as near as the circumferences' limits allow.
pub fn pair_of_outer(random: &mut Random, outer: u32) -> (u32, u32) {
    let sum = sum_of_outer(random, outer);
    split(random, sum)
}

/// Gives the courses circumferences for the outer diameter, as they are without
/// seams. Mostly each course
/// has exactly that diameter; else they differ and only their mean is near it.
/// The mean goes by the sum of the lengths, so that courses alike in diameter
/// give that diameter whether or not their lengths add up to L1.
pub fn courses_of_outer(random: &mut Random, courses: &mut [Course], outer: u32) {
    let spread = random.pick(&[0, 0, 0, outer / 100]);
    let sum = sum_of_outer(random, outer);
    for course in courses {
        let wished = random.between(sum - spread, sum + spread);
        let kept = wished.clamp(2 * CIRCUMFERENCE.low, 2 * CIRCUMFERENCE.high);
        let (first, second) = split(random, kept);
        course.first = first;
        course.second = second;
    }
}

/// One of the sums that give the outer diameter; the smallest and the largest
/// such sum are as likely as any other.
pub fn sum_of_outer(random: &mut Random, outer: u32) -> u32 {
    let middle = (u64::from(outer) * 710 / 113) as u32;
    let sums: Vec<u32> = (middle - 5..=middle + 5)
        .filter(|&sum| end_outer_diameter(sum, 0) == i64::from(outer))
        .collect();
    random
        .pick(&sums)
        .clamp(2 * CIRCUMFERENCE.low, 2 * CIRCUMFERENCE.high)
}

/// Parts a sum into two circumferences: even, at a limit, or anyhow.
pub fn split(random: &mut Random, sum: u32) -> (u32, u32) {
    let least = CIRCUMFERENCE
        .low
        .max(sum.saturating_sub(CIRCUMFERENCE.high));
    let most = CIRCUMFERENCE.high.min(sum - CIRCUMFERENCE.low);
    let first = match random.between(1, 8) {
        1 => least,
        2 => most,
        3 => random.between(least, most),
        _ => sum / 2,
    };
    (first, sum - first)
}

/// One diameter at a limit or one past it, the other sound: the limits of a
/// diameter itself, or 10,000 from DH on either side.
pub fn at_limits(random: &mut Random, format: Format) -> Plan {
    let low = DIAMETER.low;
    let high = DIAMETER.high;
    let (dh, diameter) = match random.between(1, 20) {
        1..=2 => (random.between(low, low + 10_000), low - 1),
        3..=4 => (random.between(low, low + 10_000), low),
        5 => (random.between(high - 10_000, high), high),
        6..=7 => (random.between(high - 10_000, high), high + 1),
        8..=10 => from_dh(random, 10_000),
        11..=13 => from_dh(random, 10_001),
        14..=16 => from_dh(random, -10_000),
        17..=19 => from_dh(random, -10_001),
        _ => (low, low + 10_001),
    };
    let other = dh;
    if random.one_in(2) {
        exact(random, format, dh, [diameter, other])
    } else {
        exact(random, format, dh, [other, diameter])
    }
}

/// A DH, and the diameter that lies that far from it, inside its own limits.
fn from_dh(random: &mut Random, difference: i32) -> (u32, u32) {
    let dh = random.between(60_001, 75_000);
    (dh, (dh as i32 + difference) as u32)
}

/// A survey with exactly these diameters: every course alike and walls thin
/// enough for the largest circumference.
pub fn exact(random: &mut Random, format: Format, dh: u32, [d1, d2]: [u32; 2]) -> Plan {
    let mut plan = sound::with_diameters(random, format, dh, d1, d2);
    let thickness = random.between(100, 4_000);
    let (left, right) = pair_of_outer(random, d2 + 2 * thickness);
    plan.survey.left = left;
    plan.survey.right = right;
    let sum = sum_of_outer(random, d1 + 2 * thickness);
    for course in &mut plan.survey.courses {
        let (first, second) = split(random, sum);
        course.first = first;
        course.second = second;
        course.thickness = thickness;
    }
    seams::onto_readings(&mut plan.survey.courses, &mut plan.survey.seams, dh);
    plan
}
