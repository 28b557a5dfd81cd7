//! What a survey file tries of the tape rise over seams: for counting how often
//! each edge of request E4 was tried.

use crate::bytes::unsigned_at;
use crate::counted::{counted, Counted};
use crate::dimensions::{shell_outer_diameter, wall};
use crate::format::Format;
use crate::limited::{course_numbers, seam_numbers};
use crate::limits::{CIRCUMFERENCE, SEAM_NUMBER, SEAM_THICKNESS, SEAM_WIDTH};
use crate::refusal::Refusal;
use crate::rise::{corrected, Seams};
use crate::sections::{find, headed, Headed};
use crate::survey::{parse, read_seams, Course, Survey};

counted! {
    /// Something about the seams of a file of which a table was made; the last ones
    /// are refused, with 5 or with 2.
    pub enum Rise {
        NoSeams => "no seams at all",
        NoRise => "seams without a rise",
        ExactRoot => "a second term that is an exact root",
        Largest => "the largest seams",
        OtherD1 => "another D1 than without seams",
        FirstAtSmallest => "a first reading corrected to 150,000",
        SecondAtSmallest => "a second reading corrected to 150,000",
        CoursesDeadwoodSeams => "courses, deadwood, seams in the file",
        CoursesSeamsDeadwood => "courses, seams, deadwood",
        DeadwoodCoursesSeams => "deadwood, courses, seams",
        DeadwoodSeamsCourses => "deadwood, seams, courses",
        SeamsCoursesDeadwood => "seams, courses, deadwood",
        SeamsDeadwoodCourses => "seams, deadwood, courses",
        FirstOneBelow => "a first reading corrected to 149,999, refused with 5",
        SecondOneBelow => "a second reading corrected to 149,999, refused with 5",
        NumberOnePast => "13 seams, refused with 5",
        ThicknessOnePast => "a thickness of 1,001, refused with 5",
        WidthOnePast => "a width of 5,001, refused with 5",
        OneTooFew => "seams for one course too few, refused with 2",
        OneTooMany => "seams for one course too many, refused with 2",
    }
}

use Rise::*;

impl Rise {
    /// All that a file tries, given the refusal that it met, if any.
    pub fn of_survey(file: &[u8], refusal: Option<Refusal>) -> Vec<Rise> {
        match refusal {
            None => of_accepted(file),
            Some(Refusal { number: 5, place }) => {
                of_bad_number(file, place as usize).into_iter().collect()
            }
            Some(Refusal { number: 2, .. }) => of_bad_count(file).into_iter().collect(),
            Some(_) => Vec::new(),
        }
    }
}

fn of_accepted(file: &[u8]) -> Vec<Rise> {
    let Ok(survey) = parse(file, Format::TODAY) else {
        return Vec::new();
    };
    let mut tried: Vec<Rise> = Rise::all()
        .into_iter()
        .filter(|&rise| tries(&survey, rise))
        .collect();
    tried.extend(order(headed(file, Format::TODAY)));
    tried
}

/// Whether an accepted survey tries something of its seams.
fn tries(survey: &Survey, rise: Rise) -> bool {
    let dh = survey.dh;
    let any = |has: &dyn Fn(Seams) -> bool| survey.seams.iter().any(|&seams| has(seams));
    match rise {
        NoSeams => survey.seams.iter().all(|&seams| seams == Seams::NONE),
        NoRise => {
            any(&|seams| seams.number * seams.thickness * seams.width > 0 && seams.rise(dh) == 0)
        }
        ExactRoot => any(&|seams| {
            let (top, bottom) = seams.second_squared(dh);
            let root = seams.second_term(dh);
            root > 0 && root * root * bottom == top
        }),
        Largest => any(&|seams| {
            let Seams {
                number,
                thickness,
                width,
            } = seams;
            [number, thickness, width] == [SEAM_NUMBER, SEAM_THICKNESS, SEAM_WIDTH].map(|l| l.high)
        }),
        OtherD1 => {
            let d1 = |courses: &[Course]| shell_outer_diameter(courses) - wall(courses);
            d1(&survey.courses) != d1(&survey.corrected_courses())
        }
        FirstAtSmallest => corrected_to_smallest(survey, |course| course.first),
        SecondAtSmallest => corrected_to_smallest(survey, |course| course.second),
        _ => false,
    }
}

/// Whether a reading is exactly the smallest that there may be once it has lost
/// a rise.
fn corrected_to_smallest(survey: &Survey, reading: impl Fn(Course) -> u32) -> bool {
    survey
        .courses
        .iter()
        .zip(&survey.seams)
        .any(|(&course, &seams)| {
            let left = corrected(reading(course), seams, survey.dh);
            seams.rise(survey.dh) > 0 && left == i64::from(CIRCUMFERENCE.low)
        })
}

/// The order in the file of three sections that all have records.
fn order(headed: Headed) -> Option<Rise> {
    let [courses, deadwood, seams] = [headed.courses, headed.deadwood, headed.seams?];
    if deadwood.count == 0 {
        return None;
    }
    let [c, d, s] = [courses, deadwood, seams].map(|section| section.offset);
    let orders = [
        ([c, d, s], CoursesDeadwoodSeams),
        ([c, s, d], CoursesSeamsDeadwood),
        ([d, c, s], DeadwoodCoursesSeams),
        ([d, s, c], DeadwoodSeamsCourses),
        ([s, c, d], SeamsCoursesDeadwood),
        ([s, d, c], SeamsDeadwoodCourses),
    ];
    orders
        .into_iter()
        .find(|(offsets, _)| offsets.is_sorted())
        .map(|(_, order)| order)
}

/// What a number tries that is refused with 5.
fn of_bad_number(file: &[u8], place: usize) -> Option<Rise> {
    let sections = find(file, Format::TODAY).ok()?;
    let number = unsigned_at(file, place);
    for &at in &sections.seams {
        let one_past = [NumberOnePast, ThicknessOnePast, WidthOnePast];
        for (limited, rise) in seam_numbers(at).into_iter().zip(one_past) {
            if limited.at == place {
                return (number == limited.limits.high + 1).then_some(rise);
            }
        }
    }
    for (&at, &seams) in sections.courses.iter().zip(&sections.seams) {
        let one_below = [FirstOneBelow, SecondOneBelow];
        for (limited, rise) in course_numbers(at).into_iter().zip(one_below) {
            // A reading that was outside its limits itself was not corrected.
            if limited.at == place && limited.limits.allow(number) {
                let left = corrected(number, read_seams(file, seams), unsigned_at(file, 4));
                return (left == i64::from(CIRCUMFERENCE.low) - 1).then_some(rise);
            }
        }
    }
    None
}

/// What counts try that are refused with 2: the seams' alone is wrong.
fn of_bad_count(file: &[u8]) -> Option<Rise> {
    let headed = headed(file, Format::TODAY);
    let sound = headed.sound_counts();
    let (courses, seams) = (headed.courses.count, headed.seams?.count);
    if sound && seams == courses - 1 {
        Some(OneTooFew)
    } else if sound && seams == courses + 1 {
        Some(OneTooMany)
    } else {
        None
    }
}
