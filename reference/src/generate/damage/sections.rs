//! Damage to the counts and the offsets of sections. Refusals 2 and 3 and their
//! edges.

use crate::generate::plan::{put, Part, Plan};
use crate::limits::LARGEST_FILE;
use crate::random::Random;

/// Refusal 2 and its edges; a count inside its limits reaches further than
/// its section and so may lead to refusal 3 or another.
pub fn counts(random: &mut Random, plan: &Plan, file: &mut [u8]) {
    let with_seams = plan.format.has_seams();
    if random.one_in(2) {
        let count = random.pick(&[0, 1, 40, 41, 42, 256, 0x1000_0000, 0x8000_0000, u32::MAX]);
        put(file, Part::Courses.count_at(), count);
        if with_seams && random.one_in(2) {
            // So that the two counts are not what is wrong.
            put(file, Part::Seams.count_at(), count);
        }
    } else {
        let count = random.pick(&[0, 1, 64, 65, 66, 256, 0x1555_5556, 0x8000_0000, u32::MAX]);
        put(file, Part::Deadwood.count_at(), count);
    }
}

/// A seam count that is mostly not the course count.
pub fn seam_count(random: &mut Random, plan: &Plan, file: &mut [u8]) {
    let courses = plan.survey.courses.len() as u32;
    let count = match random.between(1, 4) {
        1 => courses - 1,
        2 => courses + 1,
        3 => random.pick(&[0, 1, 40, 41, 2 * courses]),
        _ => random.pick(&[0x1000_0000, 0x8000_0000, u32::MAX, courses + 256]),
    };
    put(file, Part::Seams.count_at(), count);
}

/// Refusal 3 and its edges: a section that has records is moved.
pub fn places(random: &mut Random, plan: &Plan, file: &mut Vec<u8>) {
    let moved = random.pick(&plan.filled_parts());
    let other = other_part(random, plan, moved);
    let offset = offset(random, plan, moved, other, file.len());
    put(file, moved.offset_at(), offset);
    if random.one_in(3) {
        // Room behind, so that the end of the file is not what is wrong.
        let length = (file.len() + 1_200).min(LARGEST_FILE);
        file.resize(length, 0);
    }
}

/// Another section, with records if there is one.
fn other_part(random: &mut Random, plan: &Plan, part: Part) -> Part {
    let not_part = |parts: &[Part]| -> Vec<Part> {
        parts
            .iter()
            .copied()
            .filter(|&other| other != part)
            .collect()
    };
    match not_part(&plan.filled_parts()).as_slice() {
        [] => random.pick(&not_part(&Part::ALL)),
        filled => random.pick(filled),
    }
}

fn offset(random: &mut Random, plan: &Plan, moved: Part, other: Part, end_of_file: usize) -> u32 {
    let header = plan.format.header_bytes() as u32;
    let bytes = plan.bytes(moved);
    let (start, end) = (plan.offset(other), plan.offset(other) + plan.bytes(other));
    // 2^32 less the section's bytes: a section from there ends at 2^32.
    let wrapping = 0u32.wrapping_sub(bytes as u32);
    match random.between(1, 21) {
        // Before the end of the header, and just after it.
        1 => 0,
        2 => header - 1,
        3 => header - 4,
        4 => header,
        // To the end of the file, and one byte further.
        5 => end_of_file.saturating_sub(bytes) as u32,
        6 => (end_of_file + 1).saturating_sub(bytes) as u32,
        7 => end_of_file as u32,
        // Onto the other section: its start, its last byte, its end, and
        // the same from below.
        8..=9 => start as u32,
        10..=11 => (end - 1) as u32,
        12 => end as u32,
        13..=14 => (start + 1).saturating_sub(bytes) as u32,
        15 => start.saturating_sub(bytes) as u32,
        // So far up that the end comes round 32 bits.
        16 => wrapping,
        17 => wrapping.wrapping_add(header),
        18 => u32::MAX,
        19 => random.pick(&[0x8000_0000, 0x7fff_ffff, 65_536, 65_535]),
        // Into another format's longer header, or out of it.
        20 => random.pick(&[44, 48, 52, 56]),
        // A little way off.
        _ => (plan.offset(moved) + random.index(0, 4)) as u32,
    }
}
