//! "Dimensions": the inner diameters D1 (shell) and D2 (flanges and heads).
//! Refusals 7 and 14.

use crate::limits::{DIAMETER, DIAMETER_FROM_DH, SPHERICAL_CAP};
use crate::numbers::Quotient;
use crate::refusal::{refuse, Refusal};
use crate::survey::{Course, Survey};

/// Both inner diameters, inside their limits.
#[derive(Clone, Copy, Debug, PartialEq, Eq)]
pub struct Dimensions {
    pub d1: u32,
    pub d2: u32,
}

/// D1 and D2 of a survey, or a refusal.
pub fn dimensions(survey: &Survey) -> Result<Dimensions, Refusal> {
    // Refusal 7: "D1 or D2 outside 50,000 to 500,000 or over 10,000 from DH".
    let (Some(d1), Some(d2)) = (
        accepted_diameter(d1(survey), survey.dh),
        accepted_diameter(d2(survey), survey.dh),
    ) else {
        return Err(refuse(7));
    };

    // Refusal 14 of request E2: "when 2h exceeds D2, stands right after 7".
    if survey.kind == SPHERICAL_CAP && survey.l3 > longest_cap(d2) {
        return Err(refuse(14));
    }

    Ok(Dimensions { d1, d2 })
}

/// The longest L3 of spherical caps: the largest h of which 2h does not exceed
/// D2.
pub fn longest_cap(d2: u32) -> u32 {
    d2 / 2
}

/// "D1 is outer minus wall." The outer diameter is that of the corrected
/// readings.
pub fn d1(survey: &Survey) -> i64 {
    shell_outer_diameter(&survey.corrected_courses()) - wall(&survey.courses)
}

/// "D2 (flange and head): ..., minus the same wall". "the two end readings are
/// taken clear of seams and stay".
pub fn d2(survey: &Survey) -> i64 {
    end_outer_diameter(survey.left, survey.right) - wall(&survey.courses)
}

/// "Outer diameter: nearest of 113·W / (710·ΣL), W the sum over courses of
/// (first + second circumference)·length". "Weights stay each course's length
/// over the sum of lengths", which need not be L1.
pub fn shell_outer_diameter(courses: &[Course]) -> i64 {
    shell_outer_quotient(courses).nearest() as i64
}

/// The same, unrounded.
pub fn shell_outer_quotient(courses: &[Course]) -> Quotient {
    let mut w: u128 = 0;
    let mut lengths: u128 = 0;
    for course in courses {
        let both = u128::from(course.first) + u128::from(course.second);
        w += both * u128::from(course.length);
        lengths += u128::from(course.length);
    }
    Quotient {
        top: 113 * w,
        bottom: 710 * lengths,
    }
}

/// "nearest of 113·(left + right) / 710".
pub fn end_outer_diameter(left: u32, right: u32) -> i64 {
    end_outer_quotient(left, right).nearest() as i64
}

/// The same, unrounded.
pub fn end_outer_quotient(left: u32, right: u32) -> Quotient {
    let both = u128::from(left) + u128::from(right);
    Quotient {
        top: 113 * both,
        bottom: 710,
    }
}

/// "Wall: nearest of 2·(sum of thicknesses)/(course count)."
pub fn wall(courses: &[Course]) -> i64 {
    wall_quotient(courses).nearest() as i64
}

/// The same, unrounded.
pub fn wall_quotient(courses: &[Course]) -> Quotient {
    let sum: u128 = courses
        .iter()
        .map(|course| u128::from(course.thickness))
        .sum();
    Quotient {
        top: 2 * sum,
        bottom: courses.len() as u128,
    }
}

/// The diameter, if it is inside its limits and at most 10,000 from DH.
pub fn accepted_diameter(diameter: i64, dh: u32) -> Option<u32> {
    let low = i64::from(DIAMETER.low);
    let high = i64::from(DIAMETER.high);
    let inside = low <= diameter && diameter <= high;
    let near = (diameter - i64::from(dh)).abs() <= DIAMETER_FROM_DH;
    if inside && near {
        Some(diameter as u32)
    } else {
        None
    }
}
