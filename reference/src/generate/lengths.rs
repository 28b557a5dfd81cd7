//! Lengths of sound courses: half of the surveys have lengths that add up to
//! L1, the others lengths that miss it within the allowance.

use crate::limits::{ALLOWANCE_FOR_A_COURSE, COURSE_LENGTH};
use crate::random::Random;
use crate::survey::Survey;

/// Gives a survey another shell length, and its courses lengths for that.
pub fn put_l1(random: &mut Random, survey: &mut Survey, l1: u32) {
    survey.l1 = l1;
    let lengths = near_l1(random, l1, survey.courses.len() as u32);
    for (course, length) in survey.courses.iter_mut().zip(lengths) {
        course.length = length;
    }
}

/// The lengths of so many courses of a shell.
pub fn near_l1(random: &mut Random, l1: u32, count: u32) -> Vec<u32> {
    let miss = miss(random, ALLOWANCE_FOR_A_COURSE * count);
    let sum = if random.one_in(2) {
        l1 - miss
    } else {
        // A single course cannot be longer than the longest shell.
        (l1 + miss).min(COURSE_LENGTH.high * count)
    };
    parted(random, sum, count)
}

/// Nothing, a few u, anything within the allowance, or exactly the allowance.
fn miss(random: &mut Random, allowance: u32) -> u32 {
    match random.between(1, 8) {
        1..=4 => 0,
        5 => random.between(1, 5),
        6 => random.between(1, allowance),
        _ => allowance,
    }
}

/// Parts a sum into lengths, each inside its limits, now and then the smallest
/// that can be.
fn parted(random: &mut Random, sum: u32, count: u32) -> Vec<u32> {
    let mut rest = sum;
    let mut lengths = Vec::new();
    for left_over in (0..count).rev() {
        // Every later course needs a length inside its limits as well.
        let least = rest.saturating_sub(left_over * COURSE_LENGTH.high);
        let least = least.max(COURSE_LENGTH.low);
        let most = rest - left_over * COURSE_LENGTH.low;
        let most = most.min(COURSE_LENGTH.high);
        let length = if left_over == 0 {
            rest
        } else if random.one_in(10) {
            least
        } else {
            random.between(least, most.min(2 * rest / (left_over + 1)))
        };
        rest -= length;
        lengths.push(length);
    }
    lengths
}
