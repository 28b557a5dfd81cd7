//! The numbers of a file that have limits, in the order in which they are
//! tested. Refusal 5.

use crate::bytes::{signed_at, unsigned_at};
use crate::limits::{self, Limits};
use crate::rise::corrected;
use crate::sections::Sections;
use crate::survey::read_seams;

/// A number of the file that has limits of its own: its byte offset, its name
/// and those limits.
#[derive(Clone, Copy, Debug, PartialEq, Eq)]
pub struct Number {
    pub at: usize,
    pub name: &'static str,
    pub limits: Limits,
}

/// Where DH stands, which others' limits depend on.
pub const DH_AT: usize = 4;
/// Where the one number stands whose limits depend on the head kind.
pub const L3_AT: usize = 24;

const fn number(at: usize, name: &'static str, limits: Limits) -> Number {
    Number { at, name, limits }
}

/// "byte offset of the first, header, courses, deadwood"; by request E4 the
/// seams come after the deadwood, and corrected readings last. The order is the
/// same wherever the sections lie in the file.
pub fn first_bad_number(file: &[u8], sections: &Sections) -> Option<usize> {
    first_bad_in_header(file)
        .or_else(|| first_bad_record(file, &sections.courses, course_numbers))
        .or_else(|| first_bad_in_deadwood(file, &sections.deadwood))
        .or_else(|| first_bad_record(file, &sections.seams, seam_numbers))
        .or_else(|| first_bad_corrected(file, sections))
}

/// The header's numbers from DH to the step, in their order.
pub fn header_numbers(kind: u32) -> [Number; 7] {
    [
        number(DH_AT, "dip diameter DH", limits::DH),
        number(8, "shell length L1", limits::L1),
        number(12, "circumference left", limits::CIRCUMFERENCE),
        number(16, "circumference right", limits::CIRCUMFERENCE),
        number(20, "flange length L2", limits::L2),
        number(L3_AT, "head length L3", limits::l3_limits(kind)),
        number(28, "step", limits::STEP),
    ]
}

/// The numbers of the course at a byte offset, in their order.
pub fn course_numbers(at: usize) -> [Number; 4] {
    [
        number(at, "first circumference", limits::CIRCUMFERENCE),
        number(at + 4, "second circumference", limits::CIRCUMFERENCE),
        number(at + 8, "length", limits::COURSE_LENGTH),
        number(at + 12, "thickness", limits::THICKNESS),
    ]
}

/// The numbers of the seams at a byte offset, in their order.
pub fn seam_numbers(at: usize) -> [Number; 3] {
    [
        number(at, "number", limits::SEAM_NUMBER),
        number(at + 4, "thickness", limits::SEAM_THICKNESS),
        number(at + 8, "width", limits::SEAM_WIDTH),
    ]
}

fn first_bad_in_header(file: &[u8]) -> Option<usize> {
    first_outside(file, &header_numbers(unsigned_at(file, 0)))
}

fn first_bad_record<const N: usize>(
    file: &[u8],
    offsets: &[usize],
    numbers: impl Fn(usize) -> [Number; N],
) -> Option<usize> {
    offsets
        .iter()
        .find_map(|&at| first_outside(file, &numbers(at)))
}

/// "Low < high ≤ DH; if not, the high number is the bad one. Volume is
/// -10,000,000 to 10,000,000 v". The low number is never the bad one.
fn first_bad_in_deadwood(file: &[u8], offsets: &[usize]) -> Option<usize> {
    let dh = unsigned_at(file, DH_AT);
    for &at in offsets {
        let low = unsigned_at(file, at);
        let high = unsigned_at(file, at + 4);
        let volume = signed_at(file, at + 8);
        if low >= high || high > dh {
            return Some(at + 4);
        }
        if volume.unsigned_abs() > limits::DEADWOOD_VOLUME as u32 {
            return Some(at + 8);
        }
    }
    None
}

/// "a corrected reading out of limits is 5 at that reading, last". The place is
/// that of the reading, not of the seams. Where a file names no seams, every
/// corrected reading is the reading itself, which was tested before.
fn first_bad_corrected(file: &[u8], sections: &Sections) -> Option<usize> {
    let courses = sections.courses.iter().zip(&sections.seams);
    let mut readings = courses.flat_map(|(&at, &seams)| [(at, seams), (at + 4, seams)]);
    readings
        .find(|&(at, seams)| {
            let corrected = corrected_at(file, at, seams);
            !limits::CIRCUMFERENCE.allow_signed(corrected)
        })
        .map(|(at, _)| at)
}

/// The reading at a byte offset, corrected by the seams at another. The numbers
/// of both, and DH, are inside their limits.
pub fn corrected_at(file: &[u8], reading: usize, seams: usize) -> i64 {
    let dh = unsigned_at(file, DH_AT);
    corrected(unsigned_at(file, reading), read_seams(file, seams), dh)
}

/// The place of the first of the listed numbers that is outside its limits.
fn first_outside(file: &[u8], numbers: &[Number]) -> Option<usize> {
    numbers
        .iter()
        .find(|number| !number.limits.allow(unsigned_at(file, number.at)))
        .map(|number| number.at)
}
