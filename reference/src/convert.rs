//! Request E4: "A small program converts old files, with N = t = w = 0, by
//! document 01's rule".
//!
//! That rule: "Its converter takes accepted files and writes the sections end to
//! end after the header, in header order, an empty one's offset 0, bytes in no
//! section dropped; for a refused file it only prints the refusal."

use crate::bytes::unsigned_at;
use crate::format::Format;
use crate::limits::SEAM_BYTES;
use crate::refusal::Refusal;
use crate::rows::MOST_ROWS;
use crate::sections::headed;
use crate::table::make_table_of;

/// The file of today's format for one with a header of 48 bytes, or the refusal
/// that the old file meets in its own format. It is accepted when a table can be
/// made of it, so that a row that falls is found here too; there is room for
/// every table.
pub fn convert(old: &[u8]) -> Result<Vec<u8>, Refusal> {
    make_table_of(old, Format::Header48, MOST_ROWS)?;

    let headed = headed(old, Format::Header48);
    let seams = vec![0; headed.courses.count as usize * SEAM_BYTES];
    let sections = [
        (headed.courses.count, &old[headed.courses.bytes()]),
        (headed.deadwood.count, &old[headed.deadwood.bytes()]),
        (headed.courses.count, &seams),
    ];

    // The numbers before the sections' counts and offsets stay.
    let mut words: Vec<u32> = (0..32).step_by(4).map(|at| unsigned_at(old, at)).collect();
    let mut offset = Format::Header56.header_bytes();
    for (count, bytes) in sections {
        let named = if count == 0 { 0 } else { offset };
        words.extend([count, named as u32]);
        offset += bytes.len();
    }

    let mut file: Vec<u8> = words.iter().flat_map(|word| word.to_le_bytes()).collect();
    for (_, bytes) in sections {
        file.extend(bytes);
    }
    Ok(file)
}
