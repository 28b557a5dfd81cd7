//! Request E2, the third condition for spherical caps: any numbers of levels
//! and of lengths, one claim with shell and flanges.

mod common;

use common::*;
use reference::big::{Big, Fraction};
use reference::dimensions::Dimensions;
use reference::domes::{Dome, Domes, Totals};
use reference::gross::Tank;
use reference::heights::{DipHeight, ShellHeight};
use reference::random::Random;
use reference::slabs::{condition_holds, tolerance, total, Counts, Slabs};
use reference::survey::Survey;
use reference::volumes::CUBIC_U_IN_V;

/// Heads alone, for as many levels and lengths of them.
fn cells(d: u32, h: u32, height: u32, levels: u32, lengths: u32) -> [Fraction; 2] {
    let survey = tank_of(2, d, 0, 0, h);
    let tank = Tank::new(&survey, Dimensions { d1: d, d2: d });
    let counts = counts(1, 1, levels, lengths);
    BOTH_SLABS.map(|slabs| total(&tank, DipHeight(height), slabs, counts))
}

fn counts(shell: u32, flanges: u32, heads: u32, cap_lengths: u32) -> Counts {
    Counts {
        shell,
        flanges,
        heads,
        cap_lengths,
    }
}

#[track_caller]
fn equal(fraction: &Fraction, over: u128, under: u128) {
    assert_eq!(
        fraction.top.times(&Big::new(under)),
        fraction.bottom.times(&Big::new(over))
    );
}

/// Both totals of both domes, over a number. The first three by hand:
///
/// - one cell of the half ball fits with width 0, at its tip, and covers with
///   300·300·150 cubic u in each dome;
/// - up to 200 in two levels and three lengths of 50: the squared diameters of
///   the discs are 90,000, 80,000, 50,000 and 0; fitting widths are root of
///   70,000 and 40,000 in the upper level, 264 + 200; covering ones 283 + 265 +
///   200 in the lower and 300 + 283 + 224 in the upper;
/// - up to 100 in three levels and one length: covering widths are root of
///   35,555.6, 62,222.2 and 80,000, in whole u 189 + 250 + 283.
///
/// The others were worked out apart from this program.
#[test]
fn readings_of_the_cells() {
    for (d, h, height, levels, lengths, (fitting, covering), under) in [
        (300, 150, 300, 1, 1, (0, 2 * 300 * 300 * 150), 1),
        (300, 150, 200, 2, 3, (2 * 464 * 5_000, 2 * 1_555 * 5_000), 1),
        (300, 150, 100, 3, 1, (0, 2 * 722 * 100 * 150), 3),
        (301, 100, 157, 4, 3, (7_339_750, 19_350_250), 3),
        (11, 4, 11, 3, 2, (308, 2_552), 3),
        (10, 5, 7, 3, 3, (1_820, 5_530), 9),
        (300, 150, 0, 3, 3, (0, 0), 1),
    ] {
        let [fits, covers] = cells(d, h, height, levels, lengths);
        equal(&fits, fitting, under);
        equal(&covers, covering, under);
    }
    let [fits, covers] = cells(59_000, 1_503, 29_500, 7, 3);
    equal(&fits, 8_337_115_950_000, 7);
    equal(&covers, 21_036_903_828_000, 7);
}

/// As many levels and lengths as there are mm give the cells of the heads' row.
#[test]
fn cells_of_a_millimetre() {
    for (d, h, height) in [
        (50_000, 300, 50_000),
        (50_000, 25_000, 50_000),
        (50_000, 700, 12_300),
        (50_100, 1_200, 100),
        (50_034, 1_200, 49_900),
    ] {
        let domes = Domes::new(Dome { d, h });
        let Totals { fitting, covering } = domes.totals(ShellHeight(height));
        let [fits, covers] = cells(d, h, height, height / 100, h / 100);
        equal(&fits, 2 * fitting, 1);
        equal(&covers, 2 * covering, 1);
    }
}

/// Tanks with caps: DH, D1, D2, L1, L2 and L3.
const TANKS: [(u32, u32, u32, u32, u32, u32); 10] = [
    (50_000, 50_000, 50_000, 100_000, 0, 1),
    (50_000, 51_003, 50_001, 100_000, 20_000, 99),
    (50_003, 50_000, 50_002, 123_456, 500, 100),
    (55_555, 50_000, 60_000, 100_000, 1, 101),
    (60_000, 60_000, 59_000, 100_000, 500, 1_503),
    (50_450, 50_450, 50_450, 100_000, 0, 2_499),
    (50_000, 60_000, 50_000, 100_000, 0, 25_000),
    (50_001, 50_001, 50_001, 100_000, 20_000, 25_000),
    (110_000, 110_000, 120_000, 3_000_000, 20_000, 7_000),
    // Smaller than the limits allow, where the cells are coarse.
    (1_000, 1_003, 999, 1_000, 77, 345),
];

/// Calls for every one of these tanks.
fn for_each_tank(mut check: impl FnMut(&Survey, &Tank)) {
    for (dh, d1, d2, l1, l2, l3) in TANKS {
        let survey = tank_of(2, dh, l1, l2, l3);
        check(&survey, &Tank::new(&survey, Dimensions { d1, d2 }));
    }
}

#[test]
fn condition_three_over_many_counts() {
    let mut random = Random::new(4);
    for_each_tank(|survey, tank| {
        let dh = survey.dh;
        let inside = random.between(1, dh);
        for height in [0, 1, 99, 100, 101, dh / 2, dh / 2 + 1, inside, dh - 1, dh] {
            let height = DipHeight(height);
            let gross = tank.gross(height);
            for levels in [1, 2, 3, 7, 10, 64, 101, 333] {
                for lengths in [1, 2, 3, 5, 13, 50, 101] {
                    let shell = random.pick(&[1, 2, 3, 50, 700]);
                    let flanges = random.pick(&[1, 2, 3, 50, 700]);
                    let counts = counts(shell, flanges, levels, lengths);
                    for slabs in BOTH_SLABS {
                        assert!(
                            condition_holds(tank, height, gross, slabs, counts),
                            "{survey:?}, {height:?}, {slabs:?}, {counts:?}"
                        );
                    }
                }
            }
        }
    });
}

/// The largest domes, and of the largest diameter the shortest.
#[test]
fn condition_three_at_the_extremes() {
    for (d2, l3) in [(500_000, 250_000), (499_999, 249_999), (500_000, 1)] {
        let survey = tank_of(2, 500_000, 3_000_000, 20_000, l3);
        let tank = Tank::new(&survey, Dimensions { d1: 500_000, d2 });
        for height in [0, 1, 249_950, 250_000, 499_999, 500_000] {
            let height = DipHeight(height);
            let gross = tank.gross(height);
            for n in [1, 2, 3, 500] {
                for slabs in BOTH_SLABS {
                    assert!(condition_holds(&tank, height, gross, slabs, counts_of(n)));
                }
            }
        }
    }
}

/// "the tolerance grows by the difference of the two 1 mm totals for that row
/// plus 0.01 L", and one u past it the condition stops being true. The edges
/// were worked out apart from this program.
#[test]
fn the_edges_of_a_small_tank() {
    for (l3, grown, least, most) in [
        (1_503, 342_870_519_600, 10_290, 16_626),
        (29_500, 606_292_980_000, 13_640, 23_552),
    ] {
        let survey = tank_of(2, 60_000, 100_000, 500, l3);
        let dimensions = Dimensions {
            d1: 60_000,
            d2: 59_000,
        };
        let tank = Tank::new(&survey, dimensions);
        let height = DipHeight(30_000);
        assert_eq!(tolerance(&tank, height), grown);
        let holds = |gross| {
            BOTH_SLABS.map(|slabs| condition_holds(&tank, height, gross, slabs, counts(3, 2, 7, 3)))
        };
        assert_eq!(holds(least - 1), [false, true]);
        assert_eq!(holds(least), [true, true]);
        assert_eq!(holds(most), [true, true]);
        assert_eq!(holds(most + 1), [true, false]);
    }
}

/// It grows row by row, and for spherical caps alone.
#[test]
fn the_tolerance_of_each_row() {
    let caps = tank_of(2, 60_000, 100_000, 500, 1_503);
    let ellipsoids = tank_of(1, 60_000, 100_000, 500, 1_503);
    let dimensions = Dimensions {
        d1: 60_000,
        d2: 60_000,
    };
    let domes = Domes::new(Dome {
        d: 60_000,
        h: 1_503,
    });
    let caps = Tank::new(&caps, dimensions);
    let ellipsoids = Tank::new(&ellipsoids, dimensions);
    for height in [0, 1, 29_999, 60_000] {
        let grown = domes.difference(ShellHeight(height)) + CUBIC_U_IN_V;
        let height = DipHeight(height);
        let before = 3 * (60_000 * 100_000 + 2 * 60_000 * 500) + 3 * CUBIC_U_IN_V;
        assert_eq!(tolerance(&ellipsoids, height), before);
        assert_eq!(tolerance(&caps, height), before + grown);
    }
}

/// The check is not empty: with many cells, a gross row that is off by more
/// than the tolerance and what the cells leave open is found out.
#[test]
fn a_wrong_gross_row_fails() {
    for_each_tank(|survey, tank| {
        let height = DipHeight(survey.dh / 3);
        let gross = tank.gross(height);
        let counts = counts(20_000, 20_000, 700, 200);
        let open = tank
            .domes
            .as_ref()
            .expect("caps")
            .difference(tank.h2(height));
        let room = ((tolerance(tank, height) + open) / CUBIC_U_IN_V) as u64 + 10;
        let holds = |gross, slabs| condition_holds(tank, height, gross, slabs, counts);
        assert!(holds(gross, Slabs::Fitting) && holds(gross, Slabs::Covering));
        assert!(!holds(gross + room, Slabs::Covering), "{survey:?}");
        if gross > room {
            assert!(!holds(gross - room, Slabs::Fitting), "{survey:?}");
        }
    });
}
