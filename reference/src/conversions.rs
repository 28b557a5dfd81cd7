//! What an old survey file tries of the converter: for counting how often each
//! edge was tried.

use crate::counted::{counted, Counted};
use crate::format::Format;
use crate::limits::{COURSE_COUNT, DEADWOOD_COUNT, LARGEST_FILE};
use crate::sections::headed;

counted! {
    /// Something about a file that is converted; but for those that are shorter
    /// than today's header, which are refused, though not for that.
    pub enum Conversion {
        EndToEnd => "end to end already",
        DeadwoodFirst => "deadwood before the courses",
        BytesInNoSection => "bytes in no section",
        NoDeadwoodAtZero => "no deadwood, its offset 0",
        NoDeadwoodElsewhere => "no deadwood, its offset another",
        MostRecords => "40 courses and 64 items",
        LargestFile => "65,536 bytes",
        Under56Bytes => "48 to 55 bytes, refused with 2 or 3",
    }
}

use Conversion::*;

impl Conversion {
    /// All that a file tries, given the number of the refusal that it met, or 0.
    pub fn of_survey(file: &[u8], refusal: u32) -> Vec<Conversion> {
        let format = Format::Header48;
        if file.len() < format.header_bytes() {
            return Vec::new();
        }
        let headed = headed(file, format);
        let (courses, deadwood) = (headed.courses, headed.deadwood);
        let (c, d) = (courses.bytes(), deadwood.bytes());
        let used = format.header_bytes() + c.len() + d.len();
        let tries = |conversion: Conversion| match conversion {
            EndToEnd => file.len() == used && c.start == format.header_bytes(),
            DeadwoodFirst => deadwood.count > 0 && deadwood.offset < courses.offset,
            BytesInNoSection => file.len() > used,
            NoDeadwoodAtZero => deadwood.count == 0 && deadwood.offset == 0,
            NoDeadwoodElsewhere => deadwood.count == 0 && deadwood.offset != 0,
            MostRecords => {
                courses.count == COURSE_COUNT.high && deadwood.count == DEADWOOD_COUNT.high
            }
            LargestFile => file.len() == LARGEST_FILE,
            Under56Bytes => file.len() < Format::Header56.header_bytes(),
        };
        Conversion::all()
            .into_iter()
            .filter(|&conversion| conversion.meets(refusal) && tries(conversion))
            .collect()
    }

    /// Whether that refusal is one that it meets; 0 is a conversion.
    fn meets(self, refusal: u32) -> bool {
        match self {
            Under56Bytes => refusal == 2 || refusal == 3,
            _ => refusal == 0,
        }
    }
}
