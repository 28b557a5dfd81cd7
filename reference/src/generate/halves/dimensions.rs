//! Outer diameters and walls that are an exact half.

use crate::dimensions::wall;
use crate::format::Format;
use crate::generate::diameters::{split, sum_of_outer};
use crate::generate::plan::Plan;
use crate::generate::{seams, sound};
use crate::limits::{CIRCUMFERENCE, COURSE_COUNT, THICKNESS};
use crate::random::Random;
use crate::survey::Course;

/// Each of both outer diameters and the wall is an exact half, or not; D1 and D2
/// are near DH and a little above it.
pub fn halves(random: &mut Random, format: Format) -> Plan {
    let dh = random.between(51_000, 60_000);
    let [d1, d2] = [0; 2].map(|_| random.between(dh, dh + 5_000));
    let count = 4 * random.between(1, COURSE_COUNT.high / 4);
    let count = random.pick(&[1, 2, 4, count, count, count]);
    let mut plan = sound::with_courses(random, format, dh, [d1, d2], count);
    let survey = &mut plan.survey;
    if count.is_multiple_of(4) {
        halve_wall(random, &mut survey.courses);
    }
    let wall = wall(&survey.courses) as u32;

    let sum = sum_of_ends(random, d2 + wall);
    (survey.left, survey.right) = split(random, sum);

    let sum = sum_of_ends(random, d1 + wall);
    for course in &mut survey.courses {
        (course.first, course.second) = split(random, sum);
    }
    balance(random, &mut survey.courses);
    seams::onto_readings(&mut survey.courses, &mut survey.seams, dh);
    plan
}

/// Two readings' sum for an outer diameter: often that of an exact half near it.
/// 113·355·m/710 is 113·m/2, which is one for an odd m.
fn sum_of_ends(random: &mut Random, outer: u32) -> u32 {
    if random.one_in(4) {
        return sum_of_outer(random, outer);
    }
    let m = 2 * outer / 113;
    355 * (m + 1 - m % 2)
}

/// Two courses of one length that are off by as much to either side leave the mean
/// as it is.
fn balance(random: &mut Random, courses: &mut [Course]) {
    let [one, other, ..] = courses else {
        return;
    };
    let both = one.length + other.length;
    if both.is_multiple_of(2) {
        [one.length, other.length] = [both / 2; 2];
        let off = random.between(0, 300.min(other.second - CIRCUMFERENCE.low));
        one.first += off;
        other.second -= off;
    }
}

/// The wall of 4j courses is 2·(sum)/(4j): an exact half when the thicknesses add
/// up to j times an odd number. Every fourth course is thicker than the others by
/// that; neighbours may then differ.
fn halve_wall(random: &mut Random, courses: &mut [Course]) {
    let thickness = random.between(THICKNESS.low + 50, THICKNESS.high - 100);
    let odd = 2 * random.between(0, 20) + 1;
    for four in courses.chunks_mut(4) {
        let off = random.between(0, 50);
        for (course, by) in four.iter_mut().zip([odd, off, 0, 0]) {
            course.thickness = thickness + by;
        }
        four[2].thickness -= off;
    }
}
