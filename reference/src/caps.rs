//! What a survey file with spherical caps tries: for counting how often each
//! edge of request E2 was tried.

use crate::counted::{counted, Counted};
use crate::dimensions::{d2, longest_cap};
use crate::format::Format;
use crate::limits::SPHERICAL_CAP;
use crate::survey::parse;

counted! {
    /// Something about spherical caps of which a table was made; but for the one
    /// past the longest, which is refused.
    pub enum Cap {
        Any => "any table",
        Length1 => "length 1",
        Length99 => "length 99",
        Length100 => "length 100",
        Length101 => "length 101",
        LastLengthCutShort => "last length cut short",
        LastLevelCutShort => "last level cut short",
        HalfBall => "2h = D2",
        OnePastLongest => "one past the longest, refused with 14",
    }
}

impl Cap {
    /// The refusal that it meets; 0 is a table.
    fn refusal(self) -> u32 {
        match self {
            Cap::OnePastLongest => 14,
            _ => 0,
        }
    }

    /// All that a file tries, given the refusal that it met, or 0.
    pub fn of_survey(file: &[u8], refusal: u32) -> Vec<Cap> {
        let Some((h, d2)) = sizes(file) else {
            return Vec::new();
        };
        let tries = |cap: Cap| match cap {
            Cap::Any => true,
            Cap::Length1 => h == 1,
            Cap::Length99 => h == 99,
            Cap::Length100 => h == 100,
            Cap::Length101 => h == 101,
            Cap::LastLengthCutShort => !h.is_multiple_of(100),
            Cap::LastLevelCutShort => !d2.is_multiple_of(100),
            Cap::HalfBall => 2 * h == d2,
            Cap::OnePastLongest => h == longest_cap(d2) + 1,
        };
        Cap::all()
            .into_iter()
            .filter(|&cap| cap.refusal() == refusal && tries(cap))
            .collect()
    }
}

/// L3 and D2 of a file with spherical caps that passes refusals 1 to 6.
fn sizes(file: &[u8]) -> Option<(u32, u32)> {
    let survey = parse(file, Format::TODAY).ok()?;
    let d2 = u32::try_from(d2(&survey)).ok()?;
    (survey.kind == SPHERICAL_CAP).then_some((survey.l3, d2))
}
