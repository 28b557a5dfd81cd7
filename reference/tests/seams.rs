//! What the generator and the comparison do about seams and old files.

mod common;

use common::*;
use reference::conversions::Conversion;
use reference::counted::Tally;
use reference::generate::sound::sound;
use reference::generate::{case, old_case};
use reference::random::Random;
use reference::rise::Seams;
use reference::rises::Rise;
use reference::rows::MOST_ROWS;
use reference::{convert, make_table, Format};

/// What a survey tries, with the refusal that it meets.
fn tried(survey: &[u8]) -> Vec<Rise> {
    Rise::of_survey(survey, make_table(survey, MOST_ROWS).err())
}

/// The paper's survey with these seams on its course, and readings that are the
/// paper's once they have lost this rise.
fn seamed(seams: [u32; 3], rise: u32) -> Vec<u8> {
    let mut file = PAPER.seamed(seams[0], seams[1], seams[2]);
    put(&mut file, COURSE, 160_221 + rise);
    put(&mut file, COURSE + 4, 160_221 + rise);
    file
}

/// What the comparison counts, at each edge of an accepted survey.
#[test]
fn rises_of_a_survey() {
    use Rise::*;
    for (seams, rise, wanted) in [
        ([0, 0, 0], 0, vec![NoSeams]),
        ([1, 1, 5_000], 0, vec![NoRise]),
        ([0, 1_000, 5_000], 0, vec![]),
        ([1, 100, 124], 11, vec![OtherD1]),
        ([3, 500, 10], 401, vec![ExactRoot, OtherD1]),
        ([3, 499, 10], 399, vec![OtherD1]),
        ([12, 1_000, 5_000], 6_925, vec![Largest, OtherD1]),
        ([12, 1_000, 4_999], 6_925, vec![OtherD1]),
    ] {
        assert_eq!(tried(&seamed(seams, rise)), wanted, "{seams:?}");
    }
    // Both readings lose the same, so one at the smallest has a larger beside it.
    for (reading, wanted) in [
        (150_304, vec![FirstOneBelow]),
        (150_305, vec![OtherD1, FirstAtSmallest]),
        (150_306, vec![OtherD1]),
        (150_000, vec![]),
    ] {
        let mut file = seamed([4, 300, 1_200], 305);
        put(&mut file, COURSE, reading);
        put(&mut file, COURSE + 4, 2 * 160_526 - reading);
        assert_eq!(tried(&file), wanted, "{reading}");
        put(&mut file, COURSE, 2 * 160_526 - reading);
        put(&mut file, COURSE + 4, reading);
        let of_second = |rise: &Rise| match rise {
            FirstOneBelow => SecondOneBelow,
            FirstAtSmallest => SecondAtSmallest,
            &other => other,
        };
        let wanted: Vec<Rise> = wanted.iter().map(of_second).collect();
        assert_eq!(tried(&file), wanted, "{reading}");
    }
    // A reading of 149,999 that has nothing to lose.
    assert_eq!(tried(&PAPER.but(COURSE, 149_999)), []);
}

/// The same of refused numbers and counts.
#[test]
fn rises_that_are_refused() {
    use Rise::*;
    for (at, number, wanted) in [
        (SEAMS, 13, vec![NumberOnePast]),
        (SEAMS, 14, vec![]),
        (SEAMS + 4, 1_001, vec![ThicknessOnePast]),
        (SEAMS + 4, 1_002, vec![]),
        (SEAMS + 8, 5_001, vec![WidthOnePast]),
        (SEAMS + 8, u32::MAX, vec![]),
        (48, 0, vec![OneTooFew]),
        (48, 2, vec![OneTooMany]),
        (48, 3, vec![]),
        (32, 41, vec![]),
        (28, 99, vec![]),
    ] {
        assert_eq!(tried(&PAPER.but(at, number)), wanted, "{at} {number}");
    }
    // A wrong course count with a seam count beside it says nothing of the seams.
    let mut file = PAPER.but(32, 0);
    assert_eq!(tried(&file), []);
    put(&mut file, 32, 41);
    put(&mut file, 48, 40);
    assert_eq!(tried(&file), []);
    assert_eq!(tried(&file[..55]), []);
}

/// The order of the sections counts only where all three have records.
#[test]
fn orders_of_a_survey() {
    use Rise::*;
    let with = PAPER.with_deadwood(&[(0, 50_000, 1)]);
    assert_eq!(tried(&with), [NoSeams, CoursesSeamsDeadwood]);
    let mut file = with.clone();
    file.extend([0; 12]);
    put(&mut file, 52, 96);
    assert_eq!(tried(&file), [NoSeams, CoursesDeadwoodSeams]);
    assert_eq!(tried(&PAPER.survey()), [NoSeams]);
}

/// Sound surveys have every kind of seams, and those do not refuse them.
#[test]
fn sound_seams() {
    let surveys = 1_000;
    let [mut none, mut some, mut largest] = [0; 3];
    for number in 0..surveys {
        let plan = sound(&mut Random::for_case(13, number), Format::TODAY);
        assert_eq!(plan.survey.seams.len(), plan.survey.courses.len());
        let is_none = plan.survey.seams.iter().all(|&seams| seams == Seams::NONE);
        none += u32::from(is_none);
        some += u32::from(!is_none);
        let most = Seams {
            number: 12,
            thickness: 1_000,
            width: 5_000,
        };
        largest += u32::from(plan.survey.seams.contains(&most));
        let refusal = outcome(&plan.encode(), 0).0;
        assert!([7, 8, 14].contains(&refusal), "{refusal}");
    }
    assert!(
        none > 200 && some > 500 && largest > 80,
        "{none} {some} {largest}"
    );
}

/// Old surveys have none, and are as short as their format is.
#[test]
fn old_surveys_have_no_seams() {
    for number in 0..200 {
        let plan = sound(&mut Random::for_case(14, number), Format::Header48);
        assert!(plan.survey.seams.iter().all(|&seams| seams == Seams::NONE));
        let bytes = 48 + 16 * plan.survey.courses.len() + 12 * plan.survey.deadwood.len();
        let gaps = plan.layout.gaps.iter().sum::<usize>() + plan.layout.gap_after;
        assert_eq!(plan.encode().len(), bytes + gaps);
    }
}

/// The generated cases come to each edge.
#[test]
fn generated_rises() {
    let mut seen = Tally::default();
    for number in 0..4_000 {
        let case = case(15, number);
        let refusal = make_table(&case.survey, case.table_len).err();
        seen.add(Rise::of_survey(&case.survey, refusal));
    }
    assert!(seen.least() > 10, "{seen:?}");
}

/// What the comparison counts of old files.
#[test]
fn conversions_of_a_survey() {
    use Conversion::*;
    let tried = |file: &[u8]| Conversion::of_survey(file, OLD_PAPER.refused(file).0);
    let file = OLD_PAPER.survey();
    assert_eq!(tried(&file), [EndToEnd, NoDeadwoodAtZero]);
    let wild = OLD_PAPER.but(44, u32::MAX);
    assert_eq!(tried(&wild), [EndToEnd, NoDeadwoodElsewhere]);
    let mut longer = file.clone();
    longer.push(0);
    assert_eq!(tried(&longer), [BytesInNoSection, NoDeadwoodAtZero]);
    longer.resize(65_536, 0);
    assert_eq!(
        tried(&longer),
        [BytesInNoSection, NoDeadwoodAtZero, LargestFile]
    );
    assert_eq!(
        tried(&OLD_PAPER.with_deadwood(&[(0, 50_000, 1)])),
        [EndToEnd]
    );
    for length in [48, 55] {
        assert_eq!(tried(&file[..length]), [Under56Bytes]);
    }
    for length in [0, 47, 56, 63] {
        assert_eq!(tried(&file[..length]), []);
    }
    // Deadwood at 48, the course at 60.
    let first = OLD_PAPER.of(&[
        Piece::Deadwood(&[[0, 50_000, 1]]),
        Piece::Courses(&[PAPER_COURSE]),
    ]);
    assert_eq!(tried(&first), [DeadwoodFirst]);
}

/// The generated old files come to each edge.
#[test]
fn generated_conversions() {
    let mut seen = Tally::default();
    for number in 0..2_000 {
        let file = old_case(16, number);
        let refusal = convert(&file).map_or_else(|refusal| refusal.number, |_| 0);
        seen.add(Conversion::of_survey(&file, refusal));
    }
    assert!(seen.least() > 10, "{seen:?}");
}
