//! Reading a survey file. Refusals 1 to 6.

use crate::bytes::{signed_at, unsigned_at};
use crate::deadwood::Deadwood;
use crate::format::Format;
use crate::heights::DipHeight;
use crate::limited::first_bad_number;
use crate::limits::{self, Limits};
use crate::refusal::{refuse, refuse_at, Refusal};
use crate::rise::{corrected_courses, Seams};
use crate::sections::{self, Sections};

/// "A course is 16 bytes: two circumferences, length, thickness".
#[derive(Clone, Copy, Debug, PartialEq, Eq)]
pub struct Course {
    pub first: u32,
    pub second: u32,
    pub length: u32,
    pub thickness: u32,
}

/// A survey with every number inside its limits, and every corrected reading.
/// The courses' readings are those of the file; there are seams for each course.
#[derive(Clone, Debug, PartialEq, Eq)]
pub struct Survey {
    pub kind: u32,
    pub dh: u32,
    pub l1: u32,
    pub left: u32,
    pub right: u32,
    pub l2: u32,
    pub l3: u32,
    pub step: u32,
    pub courses: Vec<Course>,
    pub deadwood: Vec<Deadwood>,
    pub seams: Vec<Seams>,
}

impl Survey {
    /// The courses with the readings that diameters are made of.
    pub fn corrected_courses(&self) -> Vec<Course> {
        corrected_courses(&self.courses, &self.seams, self.dh)
    }
}

/// Reads a file of any bytes and any length in a format, with refusals 1 to 6
/// "tested in this order".
pub fn parse(file: &[u8], format: Format) -> Result<Survey, Refusal> {
    let survey = parse_numbers(file, format)?;

    // Refusal 6: "course lengths do not add up to L1", by request E1 "only
    // beyond the allowance".
    if !accepted_sums(&survey).allow(sum_of_lengths(&survey.courses)) {
        return Err(refuse(6));
    }

    Ok(survey)
}

/// The same with refusals 1 to 5 alone.
pub fn parse_numbers(file: &[u8], format: Format) -> Result<Survey, Refusal> {
    // Refusal 1: "file under 48 or over 65,536 bytes", by request E4 under 56.
    if file.len() < format.header_bytes() || file.len() > limits::LARGEST_FILE {
        return Err(refuse(1));
    }

    // Refusals 2 and 3.
    let sections = sections::find(file, format)?;

    // Refusal 4: "head kind not 0 or 1", nor the 2 of request E2.
    if !limits::HEAD_KIND.allow(unsigned_at(file, 0)) {
        return Err(refuse(4));
    }

    // Refusal 5: "another number outside its limits".
    if let Some(place) = first_bad_number(file, &sections) {
        return Err(refuse_at(5, place));
    }

    Ok(read(file, &sections))
}

/// The sum of the course lengths, at most 40 times 3,000,000. It weights the
/// courses; the shell's length is L1 alone.
pub fn sum_of_lengths(courses: &[Course]) -> u32 {
    courses.iter().map(|course| course.length).sum()
}

/// The sums of the course lengths that are near enough to L1: "a difference of
/// at most 100 u for each course", short or long.
pub fn accepted_sums(survey: &Survey) -> Limits {
    let allowance = length_allowance(&survey.courses);
    Limits {
        low: survey.l1 - allowance,
        high: survey.l1 + allowance,
    }
}

/// How far the sum of the course lengths may be from L1. With 40 courses it is
/// 4,000, far less than the smallest L1.
pub fn length_allowance(courses: &[Course]) -> u32 {
    limits::ALLOWANCE_FOR_A_COURSE * courses.len() as u32
}

/// Takes the numbers over, once they are known to be inside their limits.
fn read(file: &[u8], sections: &Sections) -> Survey {
    let mut seams: Vec<Seams> = sections
        .seams
        .iter()
        .map(|&at| read_seams(file, at))
        .collect();
    // A format that names no seams has courses without any.
    seams.resize(sections.courses.len(), Seams::NONE);
    Survey {
        kind: unsigned_at(file, 0),
        dh: unsigned_at(file, 4),
        l1: unsigned_at(file, 8),
        left: unsigned_at(file, 12),
        right: unsigned_at(file, 16),
        l2: unsigned_at(file, 20),
        l3: unsigned_at(file, 24),
        step: unsigned_at(file, 28),
        courses: sections
            .courses
            .iter()
            .map(|&at| read_course(file, at))
            .collect(),
        deadwood: sections
            .deadwood
            .iter()
            .map(|&at| read_deadwood(file, at))
            .collect(),
        seams,
    }
}

fn read_course(file: &[u8], at: usize) -> Course {
    Course {
        first: unsigned_at(file, at),
        second: unsigned_at(file, at + 4),
        length: unsigned_at(file, at + 8),
        thickness: unsigned_at(file, at + 12),
    }
}

fn read_deadwood(file: &[u8], at: usize) -> Deadwood {
    Deadwood {
        low: DipHeight(unsigned_at(file, at)),
        high: DipHeight(unsigned_at(file, at + 4)),
        volume: signed_at(file, at + 8),
    }
}

/// The seams at a byte offset: N, t and w.
pub fn read_seams(file: &[u8], at: usize) -> Seams {
    Seams {
        number: unsigned_at(file, at),
        thickness: unsigned_at(file, at + 4),
        width: unsigned_at(file, at + 8),
    }
}
