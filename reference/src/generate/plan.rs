//! The plan of a survey file: its numbers, and where its sections lie.

use crate::format::Format;
use crate::limits::{COURSE_BYTES, DEADWOOD_BYTES, SEAM_BYTES};
use crate::random::Random;
use crate::survey::Survey;

#[derive(Clone, Debug)]
pub struct Plan {
    pub format: Format,
    /// The numbers to write; a format without seams does not write those of the
    /// seams.
    pub survey: Survey,
    pub layout: Layout,
}

/// A section.
#[derive(Clone, Copy, Debug, PartialEq, Eq)]
pub enum Part {
    Courses,
    Deadwood,
    Seams,
}

/// The order of the sections and the bytes in no section around them.
#[derive(Clone, Copy, Debug)]
pub struct Layout {
    pub order: [Part; 3],
    /// The gap before each section, in that order.
    pub gaps: [usize; 3],
    pub gap_after: usize,
    /// The offset written for an empty deadwood section.
    pub empty_offset: u32,
    /// The seed of the bytes in the gaps.
    pub filler: u64,
}

impl Layout {
    /// End to end, in the header's order.
    pub const PLAIN: Layout = Layout {
        order: Part::ALL,
        gaps: [0; 3],
        gap_after: 0,
        empty_offset: 0,
        filler: 0,
    };
}

impl Part {
    /// In the header's order.
    pub const ALL: [Part; 3] = [Part::Courses, Part::Deadwood, Part::Seams];

    /// Where the header has the section's count; its offset is the next number.
    pub fn count_at(self) -> usize {
        match self {
            Part::Courses => 32,
            Part::Deadwood => 40,
            Part::Seams => 48,
        }
    }

    pub fn offset_at(self) -> usize {
        self.count_at() + 4
    }

    pub fn record_bytes(self) -> usize {
        match self {
            Part::Courses => COURSE_BYTES,
            Part::Deadwood => DEADWOOD_BYTES,
            Part::Seams => SEAM_BYTES,
        }
    }
}

impl Plan {
    /// How many records a section has.
    pub fn count(&self, part: Part) -> usize {
        match part {
            Part::Courses => self.survey.courses.len(),
            Part::Deadwood => self.survey.deadwood.len(),
            Part::Seams if self.format.has_seams() => self.survey.seams.len(),
            Part::Seams => 0,
        }
    }

    pub fn bytes(&self, part: Part) -> usize {
        self.count(part) * part.record_bytes()
    }

    /// Where a section starts; also of an empty one.
    pub fn offset(&self, part: Part) -> usize {
        let mut at = self.format.header_bytes();
        for (next, gap) in self.layout.order.into_iter().zip(self.layout.gaps) {
            at += gap;
            if next == part {
                break;
            }
            at += self.bytes(next);
        }
        at
    }

    /// Where a record of a section starts.
    pub fn record(&self, part: Part, index: usize) -> usize {
        self.offset(part) + index * part.record_bytes()
    }

    /// The bytes of the file without its last gap.
    pub fn bytes_without_last_gap(&self) -> usize {
        let last = self.layout.order[2];
        self.offset(last) + self.bytes(last)
    }

    /// The sections that have records.
    pub fn filled_parts(&self) -> Vec<Part> {
        Part::ALL
            .into_iter()
            .filter(|&part| self.count(part) > 0)
            .collect()
    }

    /// The survey file.
    pub fn encode(&self) -> Vec<u8> {
        let length = self.bytes_without_last_gap() + self.layout.gap_after;
        let mut file = Random::new(self.layout.filler).bytes(length);
        put_all(&mut file, 0, &self.header());
        for part in Part::ALL {
            for index in 0..self.count(part) {
                let at = self.record(part, index);
                put_all(&mut file, at, &self.record_words(part, index));
            }
        }
        file
    }

    fn record_words(&self, part: Part, index: usize) -> Vec<u32> {
        match part {
            Part::Courses => {
                let course = self.survey.courses[index];
                vec![course.first, course.second, course.length, course.thickness]
            }
            Part::Deadwood => {
                let item = self.survey.deadwood[index];
                vec![item.low.0, item.high.0, item.volume as u32]
            }
            Part::Seams => {
                let seams = self.survey.seams[index];
                vec![seams.number, seams.thickness, seams.width]
            }
        }
    }

    fn header(&self) -> Vec<u32> {
        let Survey {
            kind,
            dh,
            l1,
            left,
            right,
            l2,
            l3,
            step,
            ..
        } = self.survey;
        let mut words = vec![kind, dh, l1, left, right, l2, l3, step];
        let sections = (self.format.header_bytes() - 32) / 8;
        for &part in &Part::ALL[..sections] {
            let offset = if self.count(part) == 0 {
                self.layout.empty_offset
            } else {
                self.offset(part) as u32
            };
            words.extend([self.count(part) as u32, offset]);
        }
        words
    }
}

fn put_all(file: &mut [u8], at: usize, words: &[u32]) {
    for (index, &word) in words.iter().enumerate() {
        put(file, at + 4 * index, word);
    }
}

/// Writes a number at a byte offset, if the file reaches that far.
pub fn put(file: &mut [u8], at: usize, word: u32) {
    if at + 4 <= file.len() {
        file[at..at + 4].copy_from_slice(&word.to_le_bytes());
    }
}
