//! Damage to the bytes of a survey file: lengths, counts, section places, the
//! head kind, every other number at its limits and past them, and course
//! lengths that miss L1 by the allowance, by one more, or by far more.

mod records;
mod sections;

use super::plan::{put, Part, Plan};
use crate::limits::{self, Limits, LARGEST_FILE};
use crate::random::Random;
use crate::survey::{length_allowance, sum_of_lengths};

/// One damage. Some leave the file sound: they put a number at its limit.
pub fn damage(random: &mut Random, plan: &Plan, file: &mut Vec<u8>) {
    // The last of these are for seams alone.
    let last = if plan.format.has_seams() { 35 } else { 30 };
    match random.between(1, last) {
        1..=3 => file_length(random, plan, file),
        4..=5 => sections::counts(random, plan, file),
        6..=10 => sections::places(random, plan, file),
        11..=12 => head_kind(random, file),
        13..=18 => header_number(random, plan, file),
        19..=22 => records::course_number(random, plan, file),
        23..=26 => records::deadwood_number(random, plan, file),
        27..=30 => lengths(random, plan, file),
        31 => sections::seam_count(random, plan, file),
        32 => sections::places(random, plan, file),
        _ => records::seam_number(random, plan, file),
    }
}

/// Refusal 1 and its edges; a cut file also leads to refusal 3.
fn file_length(random: &mut Random, plan: &Plan, file: &mut Vec<u8>) {
    let whole = file.len();
    let header = plan.format.header_bytes();
    // Of either format: what is too short for one may not be for the other.
    let around_headers = random.index(47, 57);
    let length = random.pick(&[
        0,
        1,
        header - 1,
        header,
        header + 1,
        around_headers,
        around_headers,
        around_headers,
        around_headers,
        whole.saturating_sub(1),
        LARGEST_FILE,
        LARGEST_FILE + 1,
        LARGEST_FILE + 1,
        LARGEST_FILE + 5_000,
        LARGEST_FILE + 5_000,
    ]);
    file.resize(length, 0);
}

/// Refusal 4, also for kinds of which one byte alone is sound. A sound kind may
/// not go with L3: refusal 5 or 14.
fn head_kind(random: &mut Random, file: &mut [u8]) {
    let kind = random.pick(&[0, 1, 2, 3, 4, 258, 0x0200_0000, 0x8000_0000, u32::MAX]);
    put(file, 0, kind);
}

/// Refusal 5 in the header.
fn header_number(random: &mut Random, plan: &Plan, file: &mut [u8]) {
    let l3 = limits::l3_limits(plan.survey.kind);
    let (at, limits) = random.pick(&[
        (4, limits::DH),
        (8, limits::L1),
        (12, limits::CIRCUMFERENCE),
        (16, limits::CIRCUMFERENCE),
        (20, limits::L2),
        (24, l3),
        (28, limits::STEP),
    ]);
    let number = at_limits(random, limits);
    put(file, at, number);
}

/// Refusal 6 and its edges: another L1 or another length of one course; or both
/// moved alike, which leaves their difference as it was.
fn lengths(random: &mut Random, plan: &Plan, file: &mut [u8]) {
    let index = random.index(0, plan.survey.courses.len() - 1);
    let at = plan.record(Part::Courses, index) + 8;
    let length = plan.survey.courses[index].length;
    if random.one_in(6) {
        let by = random.pick(&[1, u32::MAX, 1_000, 16]);
        put(file, 8, plan.survey.l1.wrapping_add(by));
        put(file, at, length.wrapping_add(by));
        return;
    }
    let difference = i64::from(sum_of_lengths(&plan.survey.courses)) - i64::from(plan.survey.l1);
    let grown = difference_from_l1(random, plan) - difference;
    let other_l1 = inside(i64::from(plan.survey.l1) - grown, limits::L1);
    let other_length = inside(i64::from(length) + grown, limits::COURSE_LENGTH);
    // Whichever stays inside its limits, so that this is not refusal 5.
    match (other_l1, other_length) {
        (Some(l1), None) => put(file, 8, l1),
        (None, Some(length)) => put(file, at, length),
        (Some(l1), Some(_)) if random.one_in(2) => put(file, 8, l1),
        (Some(_), Some(length)) => put(file, at, length),
        (None, None) => {}
    }
}

/// A wished difference of the sum of the course lengths from L1, short or long:
/// often one past the allowance; else at it, or one past what a single course
/// is allowed, which is sound where there are more; or further off.
fn difference_from_l1(random: &mut Random, plan: &Plan) -> i64 {
    let allowance = length_allowance(&plan.survey.courses);
    let size = match random.between(1, 12) {
        1..=6 => allowance + 1,
        7 => allowance,
        8..=9 => limits::ALLOWANCE_FOR_A_COURSE + 1,
        10 => random.between(allowance + 2, allowance + 1_000),
        _ => random.between(allowance + 2, 1_000_000),
    };
    if random.one_in(2) {
        -i64::from(size)
    } else {
        i64::from(size)
    }
}

/// The number, if it is inside its limits.
fn inside(number: i64, limits: Limits) -> Option<u32> {
    let number = u32::try_from(number).ok()?;
    limits.allow(number).then_some(number)
}

/// A number one past a limit, at it, or far out.
fn at_limits(random: &mut Random, limits: Limits) -> u32 {
    match random.between(1, 12) {
        1 => limits.low,
        2..=4 => limits.low.wrapping_sub(1),
        5 => limits.high,
        6..=8 => limits.high + 1,
        9 => 0,
        10 => random.pick(&[u32::MAX, 0x8000_0000, 0x7fff_ffff]),
        11 => random.any() as u32,
        _ => random.between(limits.low, limits.high),
    }
}
