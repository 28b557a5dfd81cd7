//! The survey under "Readings off the stick", as a file of either format, and
//! the files that are like it but for something.

use super::{bytes_of, outcome, put, told};
use reference::rows::MOST_ROWS;
use reference::Format;
use Piece::*;

pub const PAPER: Paper = Paper {
    format: Format::Header56,
};
pub const OLD_PAPER: Paper = Paper {
    format: Format::Header48,
};

/// "Kind 0, DH 50,000, L1 100,000, ends 160,221, L2 0, step 10,000, one course
/// (160,221, 160,221, 100,000, 500), no deadwood"; and no seams.
const NUMBERS: [u32; 8] = [0, 50_000, 100_000, 160_221, 160_221, 0, 0, 10_000];
pub const PAPER_COURSE: [u32; 4] = [160_221, 160_221, 100_000, 500];
pub const NO_SEAMS: [u32; 3] = [0, 0, 0];

/// What a file has behind its header: a section, or bytes in none.
#[derive(Clone, Copy)]
pub enum Piece<'a> {
    Courses(&'a [[u32; 4]]),
    Deadwood(&'a [[u32; 3]]),
    Seams(&'a [[u32; 3]]),
    Gap(&'a [u8]),
}

/// The paper's survey in a format.
#[derive(Clone, Copy, Debug, PartialEq, Eq)]
pub struct Paper {
    pub format: Format,
}

impl Paper {
    /// Where the survey has its course: right behind the header.
    pub fn course(self) -> usize {
        self.format.header_bytes()
    }

    /// Where it has its deadwood, if there is any: behind all the rest.
    pub fn deadwood(self) -> usize {
        self.survey().len()
    }

    /// One of two numbers, by the format.
    pub fn either<T>(self, old: T, today: T) -> T {
        match self.format {
            Format::Header48 => old,
            Format::Header56 => today,
        }
    }

    /// The paper's numbers with these pieces, end to end; a format without seams
    /// leaves them out.
    pub fn of(self, pieces: &[Piece]) -> Vec<u8> {
        let mut file = bytes_of(&NUMBERS);
        file.resize(self.format.header_bytes(), 0);
        for &piece in pieces {
            let (count_at, count, bytes) = match piece {
                Courses(courses) => (32, courses.len(), bytes_of(courses.as_flattened())),
                Deadwood(items) => (40, items.len(), bytes_of(items.as_flattened())),
                Seams(_) if !self.format.has_seams() => continue,
                Seams(seams) => (48, seams.len(), bytes_of(seams.as_flattened())),
                Gap(bytes) => {
                    file.extend(bytes);
                    continue;
                }
            };
            let offset = file.len() as u32;
            put(&mut file, count_at, count as u32);
            put(&mut file, count_at + 4, offset);
            file.extend(bytes);
        }
        file
    }

    /// The course, then its seams: 64 bytes, or 84 with seams.
    pub fn survey(self) -> Vec<u8> {
        self.of(&[Courses(&[PAPER_COURSE]), Seams(&[NO_SEAMS])])
    }

    /// With this L1 and courses of these lengths, otherwise like its course;
    /// then their seams.
    pub fn with_courses(self, l1: u32, lengths: &[u32]) -> Vec<u8> {
        let courses: Vec<[u32; 4]> = lengths
            .iter()
            .map(|&length| [160_221, 160_221, length, 500])
            .collect();
        let seams = vec![NO_SEAMS; lengths.len()];
        let mut file = self.of(&[Courses(&courses), Seams(&seams)]);
        put(&mut file, 8, l1);
        file
    }

    /// With deadwood behind the course and its seams.
    pub fn with_deadwood(self, items: &[(u32, u32, i32)]) -> Vec<u8> {
        let items: Vec<[u32; 3]> = items
            .iter()
            .map(|&(low, high, volume)| [low, high, volume as u32])
            .collect();
        self.of(&[
            Courses(&[PAPER_COURSE]),
            Seams(&[NO_SEAMS]),
            Deadwood(&items),
        ])
    }

    /// With seams on its course.
    pub fn seamed(self, number: u32, thickness: u32, width: u32) -> Vec<u8> {
        let seams = [number, thickness, width];
        self.of(&[Courses(&[PAPER_COURSE]), Seams(&[seams])])
    }

    /// With one number of the header, the course or its seams exchanged.
    pub fn but(self, at: usize, word: u32) -> Vec<u8> {
        let mut file = self.survey();
        put(&mut file, at, word);
        file
    }

    /// With heads of this kind and length.
    pub fn headed(self, kind: u32, l3: u32) -> Vec<u8> {
        let mut file = self.but(0, kind);
        put(&mut file, 24, l3);
        file
    }

    /// How a file of the format is refused, or (0, 0) if it is not: of today's,
    /// when this table is lent, of the old one, by the converter, which has room
    /// for every table.
    pub fn refused_lending(self, table_len: usize, file: &[u8]) -> (u32, u32) {
        match self.format {
            Format::Header48 => told(reference::convert(file)),
            Format::Header56 => outcome(file, table_len),
        }
    }

    /// The same with room for every table in either.
    pub fn refused(self, file: &[u8]) -> (u32, u32) {
        self.refused_lending(MOST_ROWS, file)
    }
}
