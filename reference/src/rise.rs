//! Request E4: "The tape bridges each butt weld, so circumferences come out
//! long." By how much, document 000's formula 1 says: "the correction is 2Ntw/d +
//! (8Nt/3)·root(t/d)". Thickness, width and diameter are lengths in u, so both
//! terms are in u too.

use crate::numbers::{root_of_fraction_down, Quotient};
use crate::survey::Course;

/// The seams that the tape crosses on a course: "N seams of thickness t and
/// width w".
#[derive(Clone, Copy, Debug, PartialEq, Eq)]
pub struct Seams {
    pub number: u32,
    pub thickness: u32,
    pub width: u32,
}

impl Seams {
    /// A course without seams, as every course of a file that names none.
    pub const NONE: Seams = Seams {
        number: 0,
        thickness: 0,
        width: 0,
    };

    /// How much too long a circumference comes out over these seams, "and
    /// d = DH".
    pub fn rise(self, dh: u32) -> u32 {
        (self.first_term(dh) + self.second_term(dh)) as u32
    }

    /// "The first term is the nearest u".
    pub fn first_term(self, dh: u32) -> u128 {
        self.first_quotient(dh).nearest()
    }

    /// "the second is the largest whole u whose square does not exceed
    /// 64N²t³/(9d)".
    pub fn second_term(self, dh: u32) -> u128 {
        let (top, bottom) = self.second_squared(dh);
        root_of_fraction_down(top, bottom)
    }

    /// 2Ntw/d, unrounded.
    pub fn first_quotient(self, dh: u32) -> Quotient {
        let [n, t, w] = self.numbers();
        Quotient {
            top: 2 * n * t * w,
            bottom: u128::from(dh),
        }
    }

    /// 64N²t³/(9d), the square of (8Nt/3)·root(t/d), unrounded.
    pub fn second_squared(self, dh: u32) -> (u128, u128) {
        let [n, t, _] = self.numbers();
        (64 * n * n * t * t * t, 9 * u128::from(dh))
    }

    fn numbers(self) -> [u128; 3] {
        [self.number, self.thickness, self.width].map(u128::from)
    }
}

/// A reading that has lost the rise over the seams: below zero where the rise
/// is the larger of the two.
pub fn corrected(reading: u32, seams: Seams, dh: u32) -> i64 {
    i64::from(reading) - i64::from(seams.rise(dh))
}

/// "Both readings of a course lose the sum". Both are inside their limits then.
pub fn corrected_course(course: Course, seams: Seams, dh: u32) -> Course {
    let rise = seams.rise(dh);
    Course {
        first: course.first - rise,
        second: course.second - rise,
        ..course
    }
}

/// All courses with their corrected readings.
pub fn corrected_courses(courses: &[Course], seams: &[Seams], dh: u32) -> Vec<Course> {
    courses
        .iter()
        .zip(seams)
        .map(|(&course, &seams)| corrected_course(course, seams, dh))
        .collect()
}
