//! Request E1: course lengths that miss L1 by at most 100 u for each course.
//! Edges of refusal 6, what the lengths weight, and what L1 alone measures.

mod common;

use common::*;
use reference::counted::Tally;
use reference::generate::{case, sound::sound};
use reference::make_table;
use reference::misses::Miss;
use reference::random::Random;
use reference::rows::MOST_ROWS;
use reference::survey::{parse, sum_of_lengths};
use reference::Format;

fn refused(survey: &[u8]) -> (u32, u32) {
    outcome(survey, MOST_ROWS)
}

/// So many lengths that add up to a sum: all alike, but for a first one that
/// takes what is left.
fn lengths(sum: u32, count: u32) -> Vec<u32> {
    let each = sum / count;
    let mut lengths = vec![each; count as usize];
    lengths[0] += sum - each * count;
    lengths
}

#[test]
fn both_edges_both_ways() {
    for (count, allowance) in [(1, 100), (2, 200), (3, 300), (39, 3_900), (40, 4_000)] {
        for l1 in [100_000, 1_234_567, 2_999_899] {
            for (sum, wanted) in [
                (l1 - allowance - 1, (6, 0)),
                (l1 - allowance, (0, 0)),
                (l1 - 1, (0, 0)),
                (l1, (0, 0)),
                (l1 + 1, (0, 0)),
                (l1 + allowance, (0, 0)),
                (l1 + allowance + 1, (6, 0)),
            ] {
                let survey = PAPER.with_courses(l1, &lengths(sum, count));
                assert_eq!(refused(&survey), wanted, "{count} courses, {sum} for {l1}");
            }
        }
    }
}

/// The allowance is one number for the sum: it does not matter which course
/// misses, nor that one is off by more than its own 100.
#[test]
fn any_course_may_miss() {
    let each = [25_000; 4];
    for index in 0..4 {
        for (length, wanted) in [
            (24_599, (6, 0)),
            (24_600, (0, 0)),
            (25_400, (0, 0)),
            (25_401, (6, 0)),
        ] {
            let mut lengths = each;
            lengths[index] = length;
            assert_eq!(refused(&PAPER.with_courses(100_000, &lengths)), wanted);
        }
    }
    // One long and one short by far more than the allowance: the sum is L1.
    let exchanged = PAPER.with_courses(100_000, &[1, 49_999, 25_000, 25_000]);
    assert_eq!(refused(&exchanged), (0, 0));
}

#[test]
fn the_longest_shell() {
    // A single course ends at the longest shell; a length past its limits is
    // refusal 5, at byte 56 + 8.
    for (length, wanted) in [
        (2_999_899, (6, 0)),
        (2_999_900, (0, 0)),
        (3_000_000, (0, 0)),
        (3_000_001, (5, 64)),
        (3_000_100, (5, 64)),
    ] {
        assert_eq!(refused(&PAPER.with_courses(3_000_000, &[length])), wanted);
    }
    // Two courses may be longer together.
    for (second, wanted) in [(199, (6, 0)), (200, (0, 0)), (600, (0, 0)), (601, (6, 0))] {
        let survey = PAPER.with_courses(3_000_000, &[2_999_600, second]);
        assert_eq!(refused(&survey), wanted, "{second}");
    }
    let survey = PAPER.with_courses(3_000_000, &[3_000_000, 200]);
    assert_eq!(refused(&survey), (0, 0));
}

#[test]
fn far_from_l1() {
    assert_eq!(refused(&PAPER.with_courses(100_000, &[1])), (6, 0));
    assert_eq!(refused(&PAPER.with_courses(3_000_000, &[1; 40])), (6, 0));
    let longest = [3_000_000; 40];
    assert_eq!(refused(&PAPER.with_courses(100_000, &longest)), (6, 0));
    assert_eq!(refused(&PAPER.with_courses(3_000_000, &longest)), (6, 0));
}

/// The paper's example with a course of 99,900 or 100,100.
///
/// Outer diameter: 113·(320,442·99,900)/(710·99,900) = 113·320,442/710 =
/// 50,999.92, nearest 51,000, and so for any length; less the wall of 1,000,
/// D1 is 50,000. Over 710·L1 it would be 50,948.92 and D1 49,949, which is
/// refusal 7; of the long course 51,050.92 and D1 50,051.
///
/// The shell's rows hold D1, the heights and L1, all as in the example, so the
/// table is the example's. Its last row is the full shell, pi/4·50,000²·100,000
/// cubic u = 19,634.95 v; with a length of 99,900 it would be 19,615.
#[test]
fn the_papers_example_with_a_course_that_misses() {
    for length in [99_900, 99_999, 100_001, 100_100] {
        let table = make_table(&PAPER.but(COURSE + 8, length), 6).unwrap();
        assert_eq!((table.d1, table.d2), (50_000, 50_000));
        assert_eq!(table.rows, [0, 2_796, 7_334, 12_301, 16_839, 19_635]);
    }
}

/// Two courses of different circumferences, 200 short of L1 100,000.
///
/// W = 2·160,221·60,000 + 2·163,363·39,800 = 32,230,214,800 and 113·W =
/// 3,642,014,272,400. Over 710·99,800 = 70,858,000 that is 51,398.77, nearest
/// 51,399; D1 is 50,399. Over 710·L1 it would be 51,295.98; with the second
/// course stretched to 40,000, so that both add up to L1, 51,399.98.
///
/// H1 at DH is 50,000 + 199. Of the full section, pi/4·50,399² = 1,994,957,831
/// square u, the segment above H1 is about 2/3·6,337·200 = 845,000; the rest
/// times L1 is 19,941 v, and times 99,800 it would be 19,901 v.
#[test]
fn courses_are_weighted_by_the_sum_of_their_lengths() {
    let table = make_table(&two_courses(100_000, 39_800), 6).unwrap();
    assert_eq!(table.d1, 50_399);
    assert_eq!(table.rows[5], 19_941);
}

/// Courses of 60,000 and 40,200, and three shells for which they are 200 long,
/// exact and 200 short. D1 is that of the sum of lengths, 100,200, in all three:
/// 113·(320,442·60,000 + 326,726·40,200)/(710·100,200) = 51,401.17, less 1,000.
/// The last row is 19,942 v for L1 100,000, and 0.002 times that more for each
/// 200 of L1.
#[test]
fn the_shell_is_as_long_as_l1() {
    for (l1, last_row) in [(100_000, 19_942), (100_200, 19_982), (100_400, 20_022)] {
        let table = make_table(&two_courses(l1, 40_200), 6).unwrap();
        assert_eq!(table.d1, 50_401);
        assert_eq!(table.rows[5], last_row);
    }
}

/// The paper's survey with a course of 60,000 and a wider one of this length.
fn two_courses(l1: u32, second: u32) -> Vec<u8> {
    let mut survey = PAPER.with_courses(l1, &[60_000, second]);
    put(&mut survey, COURSE + 16, 163_363);
    put(&mut survey, COURSE + 20, 163_363);
    survey
}

/// What the comparison counts, at each edge.
#[test]
fn misses_of_a_survey() {
    let miss = |lengths: &[u32]| Miss::of_survey(&PAPER.with_courses(100_000, lengths));
    for (first, wanted) in [
        (49_000, None),
        (49_798, None),
        (49_799, Some(Miss::OnePastShort)),
        (49_800, Some(Miss::AtShort)),
        (49_801, Some(Miss::WithinShort)),
        (49_899, Some(Miss::WithinShort)),
        (49_999, Some(Miss::WithinShort)),
        (50_000, Some(Miss::None)),
        (50_001, Some(Miss::WithinLong)),
        (50_199, Some(Miss::WithinLong)),
        (50_200, Some(Miss::AtLong)),
        (50_201, Some(Miss::OnePastLong)),
        (50_202, None),
    ] {
        assert_eq!(miss(&[first, 50_000]), wanted, "{first}");
    }
    // With one course, at the allowance counts as within.
    for (length, wanted) in [
        (99_899, Some(Miss::OnePastShort)),
        (99_900, Some(Miss::WithinShort)),
        (100_100, Some(Miss::WithinLong)),
        (100_101, Some(Miss::OnePastLong)),
    ] {
        assert_eq!(miss(&[length]), wanted, "{length}");
    }
    // Files that refusals 1 to 5 turn away, and one that 7 does.
    assert_eq!(Miss::of_survey(&PAPER.survey()[..55]), None);
    assert_eq!(Miss::of_survey(&PAPER.but(28, 99)), None);
    assert_eq!(
        Miss::of_survey(&PAPER.but(COURSE + 12, 5_000)),
        Some(Miss::None)
    );
}

/// A sound survey passes refusals 1 to 6, and about half of them miss L1.
#[test]
fn sound_surveys_that_miss() {
    let surveys = 2_000;
    let mut missing = 0;
    let mut at_allowance = [[0; 2]; 3]; // one course, several, 40; short and long
    for number in 0..surveys {
        let plan = sound(&mut Random::for_case(7, number), Format::TODAY);
        let survey = parse(&plan.encode(), Format::TODAY).expect("a sound survey");
        let sum = sum_of_lengths(&survey.courses);
        let count = survey.courses.len();
        missing += u64::from(sum != survey.l1);
        if sum.abs_diff(survey.l1) == 100 * count as u32 {
            let courses = match count {
                1 => 0,
                40 => 2,
                _ => 1,
            };
            at_allowance[courses][usize::from(sum > survey.l1)] += 1;
        }
    }
    let half = surveys / 2;
    assert!(half * 8 / 10 < missing && missing < half * 12 / 10);
    for short_and_long in at_allowance {
        assert!(
            short_and_long.iter().all(|&count| count > 10),
            "{at_allowance:?}"
        );
    }
}

/// The generated cases come to each miss, and of several courses past the
/// allowance of a single one.
#[test]
fn generated_misses() {
    let mut seen = Tally::default();
    let mut past_one_course = 0;
    for number in 0..5_000 {
        let survey = case(9, number).survey;
        seen.add(Miss::of_survey(&survey));
        if let Ok(survey) = parse(&survey, Format::TODAY) {
            let difference = sum_of_lengths(&survey.courses).abs_diff(survey.l1);
            past_one_course += u32::from(difference == 101);
        }
    }
    assert!(seen.least() > 40, "{seen:?}");
    assert!(past_one_course > 10, "{past_one_course}");
}
