//! By how much the course lengths of a survey file miss the shell length L1,
//! beside the allowance: for counting how often each side and each edge of
//! refusal 6 was tried.

use crate::counted::counted;
use crate::format::Format;
use crate::survey::{length_allowance, parse_numbers, sum_of_lengths};

counted! {
    /// A sum of course lengths that is L1, or short of it or longer: within the
    /// allowance, at it, or one past it. "At" it stands only for several courses:
    /// with one, an allowance for each course and one for the whole file are alike,
    /// so that this counts as within.
    pub enum Miss {
        None => "none",
        WithinShort => "within the allowance short",
        WithinLong => "within the allowance long",
        AtShort => "exactly the allowance short",
        AtLong => "exactly the allowance long",
        OnePastShort => "one past the allowance short",
        OnePastLong => "one past the allowance long",
    }
}

impl Miss {
    /// The miss of a file that passes refusals 1 to 5; nothing for another file
    /// and for lengths that are further off.
    pub fn of_survey(file: &[u8]) -> Option<Miss> {
        let survey = parse_numbers(file, Format::TODAY).ok()?;
        let sum = sum_of_lengths(&survey.courses);
        let difference = sum.abs_diff(survey.l1);
        let allowance = length_allowance(&survey.courses);
        let (within, at, one_past) = if sum < survey.l1 {
            (Miss::WithinShort, Miss::AtShort, Miss::OnePastShort)
        } else {
            (Miss::WithinLong, Miss::AtLong, Miss::OnePastLong)
        };
        if difference == 0 {
            Some(Miss::None)
        } else if difference == allowance && survey.courses.len() > 1 {
            Some(at)
        } else if difference <= allowance {
            Some(within)
        } else if difference == allowance + 1 {
            Some(one_past)
        } else {
            None
        }
    }
}
