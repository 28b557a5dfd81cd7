//! What the generator and the comparison do about spherical caps.

mod common;

use common::*;
use reference::caps::Cap;
use reference::counted::Tally;
use reference::dimensions::d2;
use reference::generate::{case, sound::sound};
use reference::limits::SPHERICAL_CAP;
use reference::random::Random;
use reference::rows::{row_count, MOST_ROWS};
use reference::survey::parse;
use reference::Format;

/// What a survey tries, with the refusal that it meets.
fn tried(survey: &[u8]) -> Vec<Cap> {
    Cap::of_survey(survey, outcome(survey, MOST_ROWS).0)
}

/// What the comparison counts, at each edge. D2 is 50,000.
#[test]
fn caps_of_a_survey() {
    use Cap::*;
    for (l3, wanted) in [
        (0, vec![]),
        (1, vec![Any, Length1, LastLengthCutShort]),
        (99, vec![Any, Length99, LastLengthCutShort]),
        (100, vec![Any, Length100]),
        (101, vec![Any, Length101, LastLengthCutShort]),
        (24_999, vec![Any, LastLengthCutShort]),
        (25_000, vec![Any, HalfBall]),
        (25_001, vec![OnePastLongest]),
        (25_002, vec![]),
        (260_000, vec![]),
        (260_001, vec![]),
    ] {
        assert_eq!(tried(&PAPER.headed(2, l3)), wanted, "{l3}");
    }
    // D2 50,001.
    for (l3, wanted) in [
        (200, vec![Any, LastLevelCutShort]),
        (25_000, vec![Any, LastLevelCutShort]),
        (25_001, vec![OnePastLongest]),
    ] {
        let mut odd = PAPER.headed(2, l3);
        put(&mut odd, 16, 160_227);
        assert_eq!(tried(&odd), wanted, "{l3}");
    }
    // Other kinds, and caps that another refusal turns away.
    assert_eq!(tried(&PAPER.survey()), []);
    assert_eq!(tried(&PAPER.headed(1, 100)), []);
    let mut refused = PAPER.headed(2, 25_001);
    put(&mut refused, 4, 60_001);
    assert_eq!(outcome(&refused, MOST_ROWS), (7, 0));
    assert_eq!(tried(&refused), []);
    assert_eq!(Cap::of_survey(&PAPER.headed(2, 100), 8), []);
}

/// About a third of sound surveys have caps, none of them too long.
#[test]
fn sound_caps() {
    let surveys = 1_200;
    let mut caps = 0;
    for number in 0..surveys {
        let plan = sound(&mut Random::for_case(12, number), Format::TODAY);
        if plan.survey.kind == SPHERICAL_CAP {
            caps += 1;
            assert_ne!(outcome(&plan.encode(), 0).0, 14);
        }
    }
    let third = surveys / 3;
    assert!(third * 8 / 10 < caps && caps < third * 12 / 10, "{caps}");
}

/// The generated cases come to each edge, and to caps that are too long where
/// refusal 7 comes first or refusal 8 would come next.
#[test]
fn generated_caps() {
    let mut seen = Tally::default();
    let [mut seven_first, mut eight_next] = [0, 0];
    for number in 0..6_000 {
        let case = case(9, number);
        let refusal = outcome(&case.survey, case.table_len).0;
        seen.add(Cap::of_survey(&case.survey, refusal));
        let Ok(survey) = parse(&case.survey, Format::TODAY) else {
            continue;
        };
        if survey.kind == SPHERICAL_CAP && 2 * i64::from(survey.l3) > d2(&survey) {
            let short = case.table_len < row_count(survey.dh, survey.step);
            seven_first += u32::from(refusal == 7);
            eight_next += u32::from(refusal == 14 && short);
        }
    }
    assert!(seen.least() > 10, "{seen:?}");
    assert!(seven_first > 10, "{seven_first}");
    assert!(eight_next > 3, "{eight_next}");
}
