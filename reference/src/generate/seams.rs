//! Seams of sound courses, and surveys at the edges of request E4: a first term
//! that is an exact half, a second that is an exact root, no rise at all, and
//! corrected readings at their smallest and below it.

use super::halves::factor_of_half;
use super::plan::Plan;
use super::sound::{self, in_limits};
use crate::format::Format;
use crate::limits::{CIRCUMFERENCE, DH, SEAM_NUMBER, SEAM_THICKNESS, SEAM_WIDTH};
use crate::random::Random;
use crate::rise::Seams;
use crate::survey::Course;

/// The most, the thickest and the widest seams.
pub const LARGEST: Seams = Seams {
    number: SEAM_NUMBER.high,
    thickness: SEAM_THICKNESS.high,
    width: SEAM_WIDTH.high,
};

/// Seams for so many courses: none, like those of a real tank, the largest, or
/// others for each course.
pub fn sound(random: &mut Random, format: Format, courses: usize) -> Vec<Seams> {
    if !format.has_seams() {
        return vec![Seams::NONE; courses];
    }
    match random.between(1, 10) {
        1..=3 => vec![Seams::NONE; courses],
        4..=6 => vec![small(random); courses],
        7 => vec![LARGEST; courses],
        _ => (0..courses).map(|_| any(random)).collect(),
    }
}

/// A few seams up to 4 mm thick and up to 20 mm wide.
fn small(random: &mut Random) -> Seams {
    Seams {
        number: random.between(1, 4),
        thickness: random.between(20, 400),
        width: random.between(300, 2_000),
    }
}

/// Seams of any numbers, often at their limits; now and then so thin that the
/// tape does not rise by a whole u.
fn any(random: &mut Random) -> Seams {
    match random.between(1, 6) {
        1 => Seams::NONE,
        2 => Seams {
            number: random.between(1, 3),
            thickness: random.between(1, 5),
            width: random.between(1, 300),
        },
        3 => small(random),
        _ => Seams {
            number: in_limits(random, SEAM_NUMBER),
            thickness: in_limits(random, SEAM_THICKNESS),
            width: in_limits(random, SEAM_WIDTH),
        },
    }
}

/// Makes readings of circumferences without seams, as the tape gives them over
/// these: both grow by the rise. A course whose reading would be past its limits
/// loses its seams instead.
pub fn onto_readings(courses: &mut [Course], seams: &mut [Seams], dh: u32) {
    for (course, seams) in courses.iter_mut().zip(seams) {
        let rise = seams.rise(dh);
        let readings = [course.first + rise, course.second + rise];
        if readings.iter().all(|&reading| CIRCUMFERENCE.allow(reading)) {
            [course.first, course.second] = readings;
        } else {
            *seams = Seams::NONE;
        }
    }
}

/// A survey at an edge: one that all its courses share, or a corrected reading
/// of one of them at its smallest or below it.
pub fn at_edges(random: &mut Random) -> Plan {
    match random.between(1, 7) {
        1 => exact_root(random),
        2 => no_rise(random),
        3 => alike(random, DH.low, LARGEST),
        _ => smallest_reading(random),
    }
}

/// A small DH, so that its table is quickly made.
const SMALL_DH: u32 = 60_000;

/// 2Ntw/d is an exact half: with d a multiple of 400 there is a width for that,
/// often for some number and thickness.
pub fn half_first_term(random: &mut Random) -> Plan {
    loop {
        let dh = 400 * random.between(DH.low / 400, SMALL_DH / 400);
        let narrow = Seams {
            number: random.between(1, SEAM_NUMBER.high),
            thickness: 10 * random.between(1, SEAM_THICKNESS.high / 10),
            width: 1,
        };
        if let Some(width) = factor_of_half(random, narrow.first_quotient(dh), SEAM_WIDTH) {
            return alike(random, dh, Seams { width, ..narrow });
        }
    }
}

/// 64N²t³/(9d) is a whole square: with d = tq² it is that of 8Nt/(3q).
fn exact_root(random: &mut Random) -> Plan {
    let q = random.pick(&[8, 10, 20]);
    let square = q * q;
    loop {
        let thickness = random.between(DH.low.div_ceil(square), SMALL_DH / square);
        let number = random.between(1, SEAM_NUMBER.high);
        if (8 * number * thickness).is_multiple_of(3 * q) {
            let seams = Seams {
                number,
                thickness,
                width: in_limits(random, SEAM_WIDTH),
            };
            return alike(random, thickness * square, seams);
        }
    }
}

/// Seams over which the tape does not rise by half a u: 2Ntw/d is at most
/// 10,000/50,000; or without one of the three numbers.
fn no_rise(random: &mut Random) -> Plan {
    let thin = Seams {
        number: 1,
        thickness: 1,
        width: random.between(1, SEAM_WIDTH.high),
    };
    let seams = match random.between(1, 4) {
        1 => Seams {
            number: 0,
            ..LARGEST
        },
        2 => Seams {
            thickness: 0,
            ..LARGEST
        },
        _ => thin,
    };
    let dh = random.between(DH.low, SMALL_DH);
    alike(random, dh, seams)
}

/// A sound survey with this DH, these seams on every course and diameters near
/// DH.
fn alike(random: &mut Random, dh: u32, seams: Seams) -> Plan {
    let [d1, d2] = [0; 2].map(|_| random.between(dh, dh + 5_000));
    sound::with_seams(random, dh, d1, d2, |courses| vec![seams; courses])
}

/// A corrected reading of one course at the smallest that there may be, one
/// below it, or further down; its other reading makes up for it, so that D1
/// stays.
fn smallest_reading(random: &mut Random) -> Plan {
    let dh = random.between(DH.low, SMALL_DH);
    let seams = match random.between(1, 3) {
        1 => LARGEST,
        _ => small(random),
    };
    let mut plan = alike(random, dh, seams);
    let index = random.index(0, plan.survey.courses.len() - 1);
    let rise = plan.survey.seams[index].rise(dh);
    let course = &mut plan.survey.courses[index];
    let sum = course.first + course.second;
    let below = match random.between(1, 8) {
        1..=3 => 0,
        4..=6 => 1,
        7 => rise,
        _ => random.between(0, rise),
    };
    let reading = CIRCUMFERENCE.low + rise - below.min(rise);
    let readings = [reading, sum - reading];
    [course.first, course.second] = if random.one_in(2) {
        readings
    } else {
        [readings[1], readings[0]]
    };
    plan
}
