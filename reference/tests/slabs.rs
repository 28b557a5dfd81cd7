//! The mission's third condition, run on small surveys with random counts.

mod common;

use common::{counts_of, tank_of, BOTH_SLABS};
use reference::big::Big;
use reference::dimensions::{dimensions, Dimensions};
use reference::generate::sound_case;
use reference::gross::Tank;
use reference::heights::DipHeight;
use reference::limits::SPHERICAL_CAP;
use reference::make_table;
use reference::random::Random;
use reference::rows::row_heights;
use reference::slabs::{condition_holds, tolerance, total, Counts, Slabs};
use reference::survey::{parse, sum_of_lengths};
use reference::volumes::CUBIC_U_IN_V;
use reference::Format;

/// Counts from 1 to some hundreds, often very small.
fn counts(random: &mut Random) -> Counts {
    let one = |random: &mut Random| match random.between(1, 4) {
        1 => 1,
        2 => random.between(2, 5),
        3 => random.between(1, 60),
        _ => random.between(1, 700),
    };
    Counts {
        shell: one(random),
        flanges: one(random),
        heads: one(random),
        cap_lengths: one(random),
    }
}

#[test]
fn condition_three_on_generated_surveys() {
    let mut random = Random::new(3);
    let mut surveys = 0;
    let mut missing_l1 = 0;
    let mut caps = 0;
    let mut number = 0;
    while surveys < 400 {
        let case = sound_case(3, number);
        number += 1;
        let Ok(table) = make_table(&case.survey, case.table_len) else {
            continue;
        };
        let survey = parse(&case.survey, Format::TODAY).unwrap();
        if survey.dh > 120_000 || table.rows.len() > 40 {
            continue;
        }
        surveys += 1;
        missing_l1 += u32::from(sum_of_lengths(&survey.courses) != survey.l1);
        caps += u32::from(survey.kind == SPHERICAL_CAP);
        let dimensions = dimensions(&survey).unwrap();
        let tank = Tank::new(&survey, dimensions);
        for height in row_heights(survey.dh, survey.step) {
            let gross = tank.gross(height);
            let counts = counts(&mut random);
            for slabs in BOTH_SLABS {
                assert!(
                    condition_holds(&tank, height, gross, slabs, counts),
                    "survey {number}, {height:?}, {slabs:?}, {counts:?}"
                );
            }
        }
    }
    assert!(missing_l1 > 100, "{missing_l1}");
    assert!(caps > 100, "{caps}");
}

/// The largest tank the limits allow, the smallest, and between.
#[test]
fn condition_three_at_the_extremes() {
    let tanks = [
        (
            tank_of(1, 500_000, 3_000_000, 20_000, 260_000),
            500_000,
            500_000,
        ),
        (tank_of(1, 500_000, 100_000, 0, 260_000), 490_000, 500_000),
        (tank_of(1, 50_000, 100_000, 20_000, 260_000), 60_000, 50_000),
        (tank_of(0, 50_000, 100_000, 0, 0), 50_000, 60_000),
    ];
    for (survey, d1, d2) in tanks {
        let dimensions = Dimensions { d1, d2 };
        let tank = Tank::new(&survey, dimensions);
        for height in [
            0,
            1,
            survey.dh / 2,
            survey.dh / 2 + 1,
            survey.dh - 1,
            survey.dh,
        ] {
            let height = DipHeight(height);
            let gross = tank.gross(height);
            for n in [1, 2, 3, 10_000] {
                for slabs in BOTH_SLABS {
                    assert!(condition_holds(&tank, height, gross, slabs, counts_of(n)));
                }
            }
        }
    }
}

/// The check is not empty: with many slabs, a gross row that is off by more
/// than the tolerance and what the slabs leave open is found out.
#[test]
fn a_wrong_gross_row_fails() {
    let survey = tank_of(1, 50_000, 100_000, 5_000, 30_000);
    let dimensions = Dimensions {
        d1: 50_000,
        d2: 51_000,
    };
    let tank = Tank::new(&survey, dimensions);
    for height in row_heights(survey.dh, survey.step) {
        let room = (tolerance(&tank, height) / CUBIC_U_IN_V) as u64 + 10;
        let gross = tank.gross(height);
        let holds = |gross, slabs| condition_holds(&tank, height, gross, slabs, counts_of(20_000));
        assert!(holds(gross, Slabs::Fitting) && holds(gross, Slabs::Covering));
        assert!(!holds(gross + room, Slabs::Covering));
        if gross > room {
            assert!(!holds(gross - room, Slabs::Fitting));
        }
    }
}

#[test]
fn one_slab_by_hand() {
    // D = 50,000, H = 25,000, one slab: it contains D/2 as its upper face.
    // Fitting: the smaller face is 0. Covering: 50,000 · L1 · 25,000 cubic u.
    let survey = tank_of(0, 50_000, 100_000, 0, 0);
    let dimensions = Dimensions {
        d1: 50_000,
        d2: 50_000,
    };
    let tank = Tank::new(&survey, dimensions);
    let height = DipHeight(25_000);
    let fitting = total(&tank, height, Slabs::Fitting, counts_of(1));
    assert_eq!(fitting.top, Big::new(0));
    let covering = total(&tank, height, Slabs::Covering, counts_of(1));
    let by_hand = covering
        .bottom
        .times(&Big::product(&[50_000, 100_000, 25_000]));
    assert_eq!(covering.top, by_hand);
}

/// The same tank with a course that misses L1: the shell's length, in the slabs
/// and in the film, is L1 and not that of the course.
#[test]
fn slabs_and_film_go_by_l1() {
    for length in [99_900, 100_100] {
        let mut survey = tank_of(0, 50_000, 100_000, 0, 0);
        survey.courses[0].length = length;
        let dimensions = Dimensions {
            d1: 50_000,
            d2: 50_000,
        };
        let tank = Tank::new(&survey, dimensions);
        let height = DipHeight(25_000);
        // 3·50,000·100,000 cubic u and 3 v.
        assert_eq!(tolerance(&tank, height), 45_000_000_000);
        let covering = total(&tank, height, Slabs::Covering, counts_of(1));
        let by_hand = Big::product(&[50_000, 100_000, 25_000]);
        assert_eq!(covering.top, covering.bottom.times(&by_hand));
        // The covering slab is 12,500 v and the tolerance 4.5 v: the largest
        // gross row is 12,504. With the course's length instead of L1 the slab
        // would be 12,487.5 or 12,512.5 v.
        let holds = |gross| condition_holds(&tank, height, gross, Slabs::Covering, counts_of(1));
        assert!(holds(12_504));
        assert!(!holds(12_505));
    }
}

/// The readings that the proved definitions are held to, met by this program
/// too: diameter, length, height, count, and both totals over a number.
#[test]
fn the_readings_of_the_slabs() {
    let shells = [
        (10, 3, 10, 1, (0, 300), 1),
        (10, 3, 10, 2, (0, 1_200), 4),
        (10, 3, 10, 3, (840, 2_640), 9),
        (11, 3, 11, 1, (0, 363), 1),
        (11, 3, 11, 2, (0, 1_452), 4),
        (11, 3, 11, 3, (1_023, 3_201), 9),
        (10, 3, 7, 3, (1_092, 1_806), 9),
        (11, 3, 5, 2, (270, 615), 4),
        (10, 3, 0, 3, (0, 0), 9),
    ];
    let heads = [
        (10, 4, 10, 1, (0, 31_415_927), 50_000),
        (10, 4, 10, 2, (0, 31_415_927), 50_000),
        (10, 4, 10, 3, (31_415_926 * 16, 31_415_927 * 50), 2_700_000),
        (11, 4, 11, 1, (0, 3_801_327_167), 5_000_000),
        (11, 4, 11, 2, (0, 3_801_327_167), 5_000_000),
        (
            11,
            4,
            11,
            3,
            (1_900_663_523 * 16, 3_801_327_167 * 25),
            135_000_000,
        ),
        (11, 4, 6, 2, (141_371_667 * 64, 20_451_768_477), 55_000_000),
        (10, 4, 0, 3, (0, 0), 1),
    ];
    let shells = shells.map(|reading| (0, reading));
    let heads = heads.map(|reading| (1, reading));
    for (kind, (d, length, height, n, (fitting, covering), under)) in
        shells.into_iter().chain(heads)
    {
        // A shell of the length alone, or heads of the length alone.
        let survey = match kind {
            0 => tank_of(0, d, length, 0, 0),
            _ => tank_of(1, d, 0, 0, length),
        };
        let tank = Tank::new(&survey, Dimensions { d1: d, d2: d });
        for (slabs, over) in [(Slabs::Fitting, fitting), (Slabs::Covering, covering)] {
            let total = total(&tank, DipHeight(height), slabs, counts_of(n));
            assert_eq!(
                total.top.times(&Big::new(under)),
                total.bottom.times(&Big::new(over)),
                "kind {kind}, D {d}, H {height}, N {n}, {slabs:?}"
            );
        }
    }
}

/// The gross rows next to which the condition stops being true, likewise.
#[test]
fn the_edges_of_a_small_tank() {
    let survey = tank_of(1, 60_000, 100_000, 500, 15_000);
    let dimensions = Dimensions {
        d1: 60_000,
        d2: 59_000,
    };
    let counts = Counts {
        shell: 3,
        flanges: 2,
        ..counts_of(1)
    };
    let tank = Tank::new(&survey, dimensions);
    let height = DipHeight(30_000);
    assert_eq!(tolerance(&tank, height), 48_177_000_000);
    let holds =
        |gross| BOTH_SLABS.map(|slabs| condition_holds(&tank, height, gross, slabs, counts));
    assert_eq!(holds(10_199), [false, true]);
    assert_eq!(holds(10_200), [true, true]);
    assert_eq!(holds(20_397), [true, true]);
    assert_eq!(holds(20_398), [true, false]);
}

#[test]
fn big_numbers_agree_with_plain_ones() {
    let mut random = Random::new(5);
    for _ in 0..10_000 {
        let shift = random.between(0, 63);
        let a = u128::from(random.any() >> shift);
        let shift = random.between(0, 63);
        let b = u128::from(random.any() >> shift);
        assert_eq!(Big::new(a).times(&Big::new(b)), Big::new(a * b));
        assert_eq!(Big::new(a).plus(&Big::new(b)), Big::new(a + b));
        assert_eq!(Big::new(a).compare(&Big::new(b)), a.cmp(&b));
        // (a·2^64 + b)·(a·2^64 + b) and a·a·2^128 + 2·a·b·2^64 + b·b.
        let long = Big::new((a << 64) + b);
        let top = Big::product(&[a, a, 1 << 64, 1 << 64]);
        let middle = Big::product(&[2, a, b, 1 << 64]);
        let low = Big::product(&[b, b]);
        assert_eq!(long.times(&long), top.plus(&middle).plus(&low));
    }
}
