//! Where the sections of a survey file lie. Refusals 2 and 3.

use crate::bytes::unsigned_at;
use crate::format::Format;
use crate::limits::{COURSE_BYTES, COURSE_COUNT, DEADWOOD_BYTES, DEADWOOD_COUNT, SEAM_BYTES};
use crate::refusal::{refuse, Refusal};
use std::ops::Range;

/// The bytes from `start` up to, but without, `end`. In 64 bits, so that an
/// offset near 2^32 plus a length does not come round to a small number.
#[derive(Clone, Copy, Debug, PartialEq, Eq)]
struct Span {
    start: u64,
    end: u64,
}

/// What the header says of a section: where it starts and how many records it
/// has; and the bytes of one record.
#[derive(Clone, Copy, Debug, PartialEq, Eq)]
pub struct Section {
    pub offset: u32,
    pub count: u32,
    record_bytes: usize,
}

/// What the header says of all its sections. A format without seams has no such
/// section.
#[derive(Clone, Copy, Debug, PartialEq, Eq)]
pub struct Headed {
    pub courses: Section,
    pub deadwood: Section,
    pub seams: Option<Section>,
}

/// The byte offset of every course, of every deadwood item and of every
/// course's seams; of the last none where the format has no seams.
#[derive(Clone, Debug, PartialEq, Eq)]
pub struct Sections {
    pub courses: Vec<usize>,
    pub deadwood: Vec<usize>,
    pub seams: Vec<usize>,
}

/// The header's words on its sections, of a file that holds a whole header.
pub fn headed(file: &[u8], format: Format) -> Headed {
    let section = |at, record_bytes| Section {
        count: unsigned_at(file, at),
        offset: unsigned_at(file, at + 4),
        record_bytes,
    };
    Headed {
        courses: section(32, COURSE_BYTES),
        deadwood: section(40, DEADWOOD_BYTES),
        seams: format.has_seams().then(|| section(48, SEAM_BYTES)),
    }
}

/// Finds all sections of a file that holds a whole header.
pub fn find(file: &[u8], format: Format) -> Result<Sections, Refusal> {
    let headed = headed(file, format);

    // Refusal 2: "a count outside its limits"; request E4: "a seam count other
    // than the course count is 2".
    if !headed.sound_counts() || !headed.sound_seam_count() {
        return Err(refuse(2));
    }

    // Refusal 3: "a section badly placed".
    let sections = headed.sections();
    let all_inside = sections
        .iter()
        .all(|section| section.well_placed(file.len(), format));
    if !all_inside || any_overlap(&sections) {
        return Err(refuse(3));
    }

    Ok(Sections {
        courses: headed.courses.record_offsets(),
        deadwood: headed.deadwood.record_offsets(),
        seams: headed
            .seams
            .map_or(Vec::new(), |seams| seams.record_offsets()),
    })
}

/// Whether two of these sections share a byte.
fn any_overlap(sections: &[Section]) -> bool {
    sections.iter().enumerate().any(|(index, section)| {
        let others = &sections[index + 1..];
        others.iter().any(|other| section.overlaps(*other))
    })
}

impl Headed {
    /// Whether the counts of courses and deadwood are inside their limits.
    pub fn sound_counts(self) -> bool {
        COURSE_COUNT.allow(self.courses.count) && DEADWOOD_COUNT.allow(self.deadwood.count)
    }

    /// "one item ... for each course".
    pub fn sound_seam_count(self) -> bool {
        self.seams
            .is_none_or(|seams| seams.count == self.courses.count)
    }

    /// The sections in the header's order.
    pub fn sections(self) -> Vec<Section> {
        [Some(self.courses), Some(self.deadwood), self.seams]
            .into_iter()
            .flatten()
            .collect()
    }
}

impl Section {
    /// "An empty section's offset is not looked at": an empty section has no
    /// span.
    fn span(self) -> Option<Span> {
        if self.count == 0 {
            return None;
        }
        let start = u64::from(self.offset);
        let end = start + u64::from(self.count) * self.record_bytes as u64;
        Some(Span { start, end })
    }

    /// "A non-empty section starts at byte 48 or later, ends inside the file":
    /// later requests' "section starts use the new sizes" of the header.
    pub fn well_placed(self, file_bytes: usize, format: Format) -> bool {
        match self.span() {
            None => true,
            Some(span) => {
                span.start >= format.header_bytes() as u64 && span.end <= file_bytes as u64
            }
        }
    }

    /// "... and overlaps no other". Sections that only touch do not overlap.
    pub fn overlaps(self, other: Section) -> bool {
        match (self.span(), other.span()) {
            (Some(a), Some(b)) => a.start < b.end && b.start < a.end,
            _ => false,
        }
    }

    /// The bytes of a section that is well placed; none of an empty one.
    pub fn bytes(self) -> Range<usize> {
        match self.span() {
            None => 0..0,
            Some(span) => span.start as usize..span.end as usize,
        }
    }

    /// The byte offset of each record.
    fn record_offsets(self) -> Vec<usize> {
        (0..self.count as usize)
            .map(|index| self.offset as usize + index * self.record_bytes)
            .collect()
    }
}
