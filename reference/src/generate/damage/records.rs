//! Damage to the numbers of courses, deadwood items and seams. Refusal 5 and its
//! edges.

use super::at_limits;
use crate::bytes::{signed_at, unsigned_at};
use crate::generate::plan::{put, Part, Plan};
use crate::limits;
use crate::random::Random;

/// Refusal 5 in a course, often the first or the last.
pub fn course_number(random: &mut Random, plan: &Plan, file: &mut [u8]) {
    let index = often_an_end(random, plan.survey.courses.len());
    let (within, limits) = random.pick(&[
        (0, limits::CIRCUMFERENCE),
        (4, limits::CIRCUMFERENCE),
        (8, limits::COURSE_LENGTH),
        (12, limits::THICKNESS),
    ]);
    let number = at_limits(random, limits);
    put(file, plan.record(Part::Courses, index) + within, number);
}

/// Refusal 5 in the seams of a course, often the first or the last. All of their
/// smallest numbers are 0, so one past the largest comes more often.
pub fn seam_number(random: &mut Random, plan: &Plan, file: &mut [u8]) {
    let index = often_an_end(random, plan.survey.seams.len());
    let (within, limits) = random.pick(&[
        (0, limits::SEAM_NUMBER),
        (4, limits::SEAM_THICKNESS),
        (8, limits::SEAM_WIDTH),
    ]);
    let number = match random.between(1, 2) {
        1 => limits.high + 1,
        _ => at_limits(random, limits),
    };
    put(file, plan.record(Part::Seams, index) + within, number);
}

/// Refusal 5 in a deadwood item, often the first or the last. Either height can
/// make the high height the bad number, so the volume comes as often as both.
pub fn deadwood_number(random: &mut Random, plan: &Plan, file: &mut [u8]) {
    if plan.survey.deadwood.is_empty() {
        return;
    }
    let index = often_an_end(random, plan.survey.deadwood.len());
    let at = plan.record(Part::Deadwood, index);
    if at + Part::Deadwood.record_bytes() > file.len() {
        return;
    }
    let low = unsigned_at(file, at);
    let high = unsigned_at(file, at + 4);
    let volume = signed_at(file, at + 8);
    let most = limits::DEADWOOD_VOLUME;
    match random.between(1, 4) {
        1 => {
            let around = [high, high.wrapping_sub(1), high.wrapping_add(1)];
            let low = random.pick(&[around[0], around[1], around[2], plan.survey.dh, 0, u32::MAX]);
            put(file, at, low);
        }
        2 => {
            let around = [low, low.wrapping_sub(1), low.wrapping_add(1)];
            let top = [plan.survey.dh, plan.survey.dh + 1];
            let high = random.pick(&[around[0], around[1], around[2], top[0], top[1], 0, u32::MAX]);
            put(file, at + 4, high);
        }
        _ => {
            let extremes = [i32::MIN, i32::MAX, volume.wrapping_neg()];
            let edges = [most, most + 1, -most, -most - 1];
            let volume = if random.one_in(3) {
                random.pick(&extremes)
            } else {
                random.pick(&edges)
            };
            put(file, at + 8, volume as u32);
        }
    }
}

fn often_an_end(random: &mut Random, count: usize) -> usize {
    match random.between(1, 3) {
        1 => 0,
        2 => count - 1,
        _ => random.index(0, count - 1),
    }
}
