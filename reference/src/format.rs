//! The formats of a survey file, told apart by the bytes of their headers.
//!
//! "Where a later request lengthens header or records, the new words stand at
//! the end and refusals 1 to 3 and section starts use the new sizes." One reader
//! reads all of them; the format is a value that it is given.

/// A format, by its header.
#[derive(Clone, Copy, Debug, PartialEq, Eq)]
pub enum Format {
    /// "A header of 48 bytes": courses and deadwood. No course has seams.
    Header48,
    /// Request E4: "The header grows to 56 bytes with count and offset of a seam
    /// section".
    Header56,
}

impl Format {
    /// The format of which tables are made.
    pub const TODAY: Format = Format::Header56;

    pub fn header_bytes(self) -> usize {
        match self {
            Format::Header48 => 48,
            Format::Header56 => 56,
        }
    }

    /// Whether the header names a seam section.
    pub fn has_seams(self) -> bool {
        self == Format::Header56
    }
}
