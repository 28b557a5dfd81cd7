//! What a refusal means, in words: one sentence, without the end of its line.
//!
//! Lengths and volumes are named as the file's whole numbers, then in brackets
//! in mm or litres. Records are counted from 1, rows from 0.

use crate::bytes::{signed_at, unsigned_at};
use crate::dimensions::{accepted_diameter, d1, d2, longest_cap};
use crate::format::Format;
use crate::limited::{
    corrected_at, course_numbers, header_numbers, seam_numbers, Number, DH_AT, L3_AT,
};
use crate::limits::{self, Limits};
use crate::refusal::Refusal;
use crate::rows::row_heights;
use crate::sections::{self, Section, Sections};
use crate::survey::{accepted_sums, parse, parse_numbers, sum_of_lengths, Survey};
use crate::text::with_commas;

/// The sentence for a survey file of a format and the refusal that it meets with
/// a lent table of some length. The programs lend enough cells for every table,
/// so they never come to that of refusal 8.
pub fn of_survey(file: &[u8], format: Format, refusal: Refusal) -> Option<String> {
    let place = refusal.place as usize;
    let survey = || parse(file, format).ok();
    match refusal.number {
        1 => Some(file_length(file.len(), format)),
        2 => bad_count(file, format),
        3 => bad_section(file, format),
        4 => Some(format!(
            "head kind {}: must be 0 (flat), 1 (half-ellipsoid) or 2 (spherical cap)",
            unsigned_at(file, 0)
        )),
        5 => bad_number(file, format, place),
        6 => bad_lengths(&parse_numbers(file, format).ok()?),
        7 => bad_diameter(&survey()?),
        14 => long_cap(&survey()?),
        8 => Some("lent table: must have a cell for each row".to_string()),
        9 => falling_row(&survey()?, place),
        _ => None,
    }
}

/// The sentence for a survey that is to be converted from a header of so many
/// bytes, whatever its own are; none for the one header that old surveys have.
pub fn of_old_header(bytes: u32) -> Option<String> {
    let old = Format::Header48.header_bytes();
    (bytes as usize != old).then(|| format!("old header of {bytes} bytes: must have {old}"))
}

/// The sentence for a height (refusal 12) or a volume (refusal 13) that was
/// looked up in a table with this DH and this last row. Refusal 11 comes out
/// of no survey's table and has no sentence.
pub fn of_lookup(figure: u32, refusal: Refusal, dh: u32, last_row: u32) -> Option<String> {
    match refusal.number {
        12 => Some(format!(
            "dip height {}: must be at most DH {dh}",
            length(figure)
        )),
        13 => Some(format!(
            "volume {}: must be at most the last row, {last_row}",
            volume(figure)
        )),
        _ => None,
    }
}

/// Refusal 1. How much too long a file is, is not told.
fn file_length(bytes: usize, format: Format) -> String {
    let (low, high) = (format.header_bytes(), limits::LARGEST_FILE);
    if bytes > high {
        format!("file of more than {high} bytes: must have {low} to {high}")
    } else {
        format!("file of {bytes} bytes: must have {low} to {high}")
    }
}

/// Refusal 2: the first count that is wrong.
fn bad_count(file: &[u8], format: Format) -> Option<String> {
    let headed = sections::headed(file, format);
    let limited = [
        ("course count", headed.courses.count, limits::COURSE_COUNT),
        (
            "deadwood count",
            headed.deadwood.count,
            limits::DEADWOOD_COUNT,
        ),
    ];
    let outside_limits = limited
        .into_iter()
        .find(|&(_, count, limits)| !limits.allow(count))
        .map(|(name, count, limits)| outside(name, &count.to_string(), limits));
    outside_limits.or_else(|| {
        let seams = headed.seams.filter(|_| !headed.sound_seam_count())?;
        Some(format!(
            "seam count {}: must be {}, the course count",
            seams.count, headed.courses.count
        ))
    })
}

/// Refusal 3: the first fault in an order of their own, which tells an overlap
/// with a section before it tells that the other one is outside the file.
fn bad_section(file: &[u8], format: Format) -> Option<String> {
    let headed = sections::headed(file, format);
    let courses = ("courses", headed.courses);
    let deadwood = ("deadwood", headed.deadwood);
    let outside = |(name, section): (&str, Section)| {
        let bad = !section.well_placed(file.len(), format);
        bad.then(|| section_outside(name, section, file.len(), format))
    };
    let overlap = |(name, section): (&str, Section), (other_name, other): (&str, Section)| {
        section.overlaps(other).then(|| {
            format!(
                "byte offset of the {name} {}: its {} records must not overlap the {other_name}",
                section.offset, section.count
            )
        })
    };
    let seams = headed.seams.map(|seams| ("seams", seams));
    outside(courses)
        .or_else(|| overlap(deadwood, courses))
        .or_else(|| overlap(seams?, courses))
        .or_else(|| outside(deadwood))
        .or_else(|| overlap(seams?, deadwood))
        .or_else(|| outside(seams?))
}

fn section_outside(name: &str, section: Section, bytes: usize, format: Format) -> String {
    format!(
        "byte offset of the {name} {}: its {} records must start at byte {} or later and end \
         inside the file of {bytes} bytes",
        section.offset,
        section.count,
        format.header_bytes()
    )
}

/// Refusal 5: the number at a place in the header, a course, a deadwood item or
/// a course's seams.
fn bad_number(file: &[u8], format: Format, place: usize) -> Option<String> {
    let sections = sections::find(file, format).ok()?;
    in_header(file, place)
        .or_else(|| in_courses(file, &sections, place))
        .or_else(|| in_deadwood(file, &sections.deadwood, place))
        .or_else(|| in_seams(file, &sections.seams, place))
}

fn in_header(file: &[u8], place: usize) -> Option<String> {
    let kind = unsigned_at(file, 0);
    let number = at_place(&header_numbers(kind), place)?;
    let sentence = length_outside(file, number);
    if place == L3_AT {
        Some(sentence + " for this kind of head")
    } else {
        Some(sentence)
    }
}

/// A reading that is itself inside its limits is refused for what is left of it
/// once it is corrected.
fn in_courses(file: &[u8], sections: &Sections, place: usize) -> Option<String> {
    (0..).zip(&sections.courses).find_map(|(index, &at)| {
        let number = at_place(&course_numbers(at), place)?;
        let told = if number.limits.allow(unsigned_at(file, place)) {
            let corrected = corrected_at(file, place, *sections.seams.get(index)?);
            let name = format!("{} less the tape rise over its seams", number.name);
            outside(&name, &length(corrected), number.limits)
        } else {
            length_outside(file, number)
        };
        Some(format!("course {}, {told}", index + 1))
    })
}

fn in_deadwood(file: &[u8], offsets: &[usize], place: usize) -> Option<String> {
    (1..).zip(offsets).find_map(|(count, &at)| {
        if place == at + 4 {
            Some(format!(
                "deadwood item {count}, high height {}: must be above its low height and at most \
                 DH {}",
                length(unsigned_at(file, place)),
                unsigned_at(file, DH_AT)
            ))
        } else if place == at + 8 {
            let most = limits::DEADWOOD_VOLUME;
            Some(format!(
                "deadwood item {count}, volume {}: must be {} to {most}",
                volume(signed_at(file, place)),
                -most
            ))
        } else {
            None
        }
    })
}

/// The number of seams is no length: it is told without mm.
fn in_seams(file: &[u8], offsets: &[usize], place: usize) -> Option<String> {
    (1..).zip(offsets).find_map(|(count, &at)| {
        let number = at_place(&seam_numbers(at), place)?;
        let told = if place == at {
            let seams = unsigned_at(file, place).to_string();
            outside(number.name, &seams, number.limits)
        } else {
            length_outside(file, number)
        };
        Some(format!("seams of course {count}, {told}"))
    })
}

fn at_place(numbers: &[Number], place: usize) -> Option<Number> {
    numbers.iter().copied().find(|number| number.at == place)
}

/// Refusal 6.
fn bad_lengths(survey: &Survey) -> Option<String> {
    let sum = length(sum_of_lengths(&survey.courses));
    Some(format!(
        "{}, the shell length L1 give or take {} for each course",
        outside("sum of the course lengths", &sum, accepted_sums(survey)),
        limits::ALLOWANCE_FOR_A_COURSE
    ))
}

/// Refusal 7: D1 where that is wrong, else D2.
fn bad_diameter(survey: &Survey) -> Option<String> {
    let dh = survey.dh;
    let (name, diameter) = [
        ("shell diameter D1", d1(survey)),
        ("head diameter D2", d2(survey)),
    ]
    .into_iter()
    .find(|&(_, diameter)| accepted_diameter(diameter, dh).is_none())?;
    Some(format!(
        "{} and at most {} from DH {dh}",
        outside(name, &length(diameter), limits::DIAMETER),
        limits::DIAMETER_FROM_DH
    ))
}

/// Refusal 14.
fn long_cap(survey: &Survey) -> Option<String> {
    let d2 = accepted_diameter(d2(survey), survey.dh)?;
    Some(format!(
        "head length L3 {}: must be at most {} for spherical caps, half the head diameter D2 {d2}",
        length(survey.l3),
        longest_cap(d2)
    ))
}

/// Refusal 9: the row of an index.
fn falling_row(survey: &Survey, index: usize) -> Option<String> {
    let height = row_heights(survey.dh, survey.step).get(index)?.0;
    Some(format!(
        "row {index} at dip height {}: must not be below the row before; the deadwood is larger \
         than the room there",
        length(height)
    ))
}

fn length_outside(file: &[u8], number: Number) -> String {
    outside(
        number.name,
        &length(unsigned_at(file, number.at)),
        number.limits,
    )
}

fn outside(name: &str, number: &str, limits: Limits) -> String {
    format!("{name} {number}: must be {} to {}", limits.low, limits.high)
}

/// A number of u, such as `270000 (2,700.00 mm)`.
fn length(u: impl Into<i64>) -> String {
    let u = u.into();
    format!("{u} ({} mm)", with_commas(u))
}

/// A number of v, such as `270000 (2,700.00 L)`.
fn volume(v: impl Into<i64>) -> String {
    let v = v.into();
    format!("{v} ({} L)", with_commas(v))
}
