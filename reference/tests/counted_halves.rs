//! What the generator and the comparison do about exact halves.

mod common;

use common::*;
use reference::counted::{Counted, Tally};
use reference::generate::halves::factor_of_half;
use reference::generate::lookups::{lookup_case, Asked, LookupCase};
use reference::gross::Tank;
use reference::halves::falls::Fall;
use reference::halves::lookups::Looked;
use reference::halves::Rounded;
use reference::limits::Limits;
use reference::numbers::Half::{self, Down, Up};
use reference::numbers::Quotient;
use reference::random::Random;
use reference::rows::MOST_ROWS;
use reference::table::{lay_out, table_of_tank};
use reference::Format;

fn tank(file: &[u8]) -> Tank {
    lay_out(file, Format::TODAY, MOST_ROWS).unwrap()
}

fn halves(file: &[u8]) -> Vec<(Rounded, Half)> {
    Rounded::of_tank(&tank(file)).into_iter().collect()
}

/// What is counted of dimensions; the numbers are those of `tests/halves.rs`.
#[test]
fn halves_of_dimensions() {
    use Rounded::*;
    assert_eq!(halves(&PAPER.survey()), []);
    for (sum, wanted) in [
        (320_564, None),
        (320_565, Some(Up)),
        (321_275, Some(Down)),
        (321_276, None),
    ] {
        for (at, rounded) in [(12, EndDiameter), (COURSE, ShellDiameter)] {
            let mut file = PAPER.but(at, 160_000);
            put(&mut file, at + 4, sum - 160_000);
            let wanted: Vec<_> = wanted.map(|half| (rounded, half)).into_iter().collect();
            assert_eq!(halves(&file), wanted, "{sum}");
        }
    }
    for (thickness, wanted) in [
        (497, vec![(Wall, Down)]),
        (498, vec![]),
        (499, vec![(Wall, Up)]),
    ] {
        let mut file = PAPER.with_courses(100_000, &[25_000; 4]);
        put(&mut file, COURSE + 12, thickness);
        assert_eq!(halves(&file), wanted, "{thickness}");
    }
    // The corrected readings count: the seams have a rise of 11, of which 0.5 was
    // rounded down.
    let mut file = PAPER.seamed(1, 100, 125);
    put(&mut file, COURSE, 160_000);
    put(&mut file, COURSE + 4, 160_565);
    assert_eq!(halves(&file), [(FirstTerm, Down)]);
    put(&mut file, COURSE, 160_011);
    put(&mut file, COURSE + 4, 160_576);
    assert_eq!(halves(&file), [(ShellDiameter, Up), (FirstTerm, Down)]);
    put(&mut file, SEAMS + 8, 375);
    assert_eq!(halves(&file), [(FirstTerm, Up)]);
}

/// Of the shell, the flanges and the heads; the rows are those of
/// `tests/halves.rs`. In a tank of all the same diameter both readings of the
/// course and of the ends are these.
#[test]
fn halves_of_parts() {
    use Rounded::*;
    let paper = [160_221, 160_221];
    for (kind, dh, readings, [l1, l2, l3], step, wanted) in [
        (0, 50_000, paper, [250_000, 0, 0], 8_100, (Shell, Down)),
        (0, 50_000, paper, [750_000, 0, 0], 8_100, (Shell, Up)),
        (
            0,
            55_450,
            [177_343; 2],
            [100_000, 18_750, 0],
            7_800,
            (Flanges, Down),
        ),
        (
            0,
            55_450,
            [177_343; 2],
            [100_000, 6_250, 0],
            7_800,
            (Flanges, Up),
        ),
        (
            1,
            113_000,
            [358_141, 358_142],
            [100_000, 0, 9_000],
            10_000,
            (Ellipsoids, Down),
        ),
        (
            1,
            113_000,
            [358_141, 358_142],
            [100_000, 0, 15_000],
            10_000,
            (Ellipsoids, Up),
        ),
        // 113·362,961/710 is 57,767.03, and 113·341,271/710 is 54,314.96.
        (
            2,
            56_767,
            [181_480, 181_481],
            [100_000, 0, 100],
            2_900,
            (Caps, Down),
        ),
        (
            2,
            53_315,
            [170_635, 170_636],
            [100_000, 0, 100],
            6_300,
            (Caps, Up),
        ),
    ] {
        let mut file = PAPER.survey();
        let header = [kind, dh, l1, readings[0], readings[1], l2, l3, step];
        let course = [readings[0], readings[1], l1];
        for (index, &number) in header.iter().enumerate() {
            put(&mut file, 4 * index, number);
        }
        for (index, &number) in course.iter().enumerate() {
            put(&mut file, COURSE + 4 * index, number);
        }
        assert_eq!(halves(&file), [wanted]);
    }
}

/// Of deadwood, where a row is at the middle of an item, or at a quarter.
#[test]
fn halves_of_shares() {
    use Rounded::*;
    for (item, wanted) in [
        ((0, 20_000, 1), vec![(DeadwoodTaken, Down)]),
        ((0, 20_000, 2), vec![]),
        ((0, 20_000, 3), vec![(DeadwoodTaken, Up)]),
        ((0, 20_000, -1), vec![(DeadwoodAdded, Down)]),
        ((0, 20_000, -3), vec![(DeadwoodAdded, Up)]),
        (
            (0, 40_000, 2),
            vec![(DeadwoodTaken, Down), (DeadwoodTaken, Up)],
        ),
        ((0, 10_000, 1), vec![]),
        ((1, 20_000, 1), vec![]),
    ] {
        assert_eq!(halves(&PAPER.with_deadwood(&[item])), wanted, "{item:?}");
    }
}

/// Of rows that fall or not; the numbers are those of `tests/halves.rs`.
#[test]
fn halves_at_a_fall() {
    for (items, wanted) in [
        (vec![(0, 20_000, 5_593)], Some(Fall::Kept)),
        (vec![(0, 20_000, 5_594)], None),
        (vec![(0, 20_000, 5_591)], None),
        (vec![(20_000, 40_000, 9_935)], None),
        (vec![(0, 10_000, 2_797), (0, 20_000, -1)], Some(Fall::Made)),
        (vec![(0, 10_000, 2_798), (0, 20_000, -3)], None),
        (vec![(0, 10_000, 2_797), (0, 20_000, -5)], None),
    ] {
        let tank = tank(&PAPER.with_deadwood(&items));
        assert_eq!(Fall::of_tank(&tank), wanted, "{items:?}");
    }
}

/// What is counted of lookups.
#[test]
fn halves_of_lookups() {
    use Asked::*;
    use Looked::{AboveEven, AboveOdd, Middle, OffMiddle, ShortGap};
    let rising = [0, 1, 2, 3, 4, 5];
    let quarters = [0, 2, 3, 5, 5, 5];
    let short = [0, 0, 0, 0, 0, 100, 105];
    let height = |half| vec![(Looked::Height, half)];
    for (table, step, asked, wanted) in [
        (&rising[..], 10_000, Litres(4_999), vec![]),
        (
            &rising,
            10_000,
            Litres(5_000),
            vec![(AboveEven, Down), (Middle, Down)],
        ),
        (
            &rising,
            10_000,
            Litres(15_000),
            vec![(AboveOdd, Up), (Middle, Up)],
        ),
        (&rising, 10_000, Litres(10_000), vec![]),
        (&rising, 10_000, Litres(50_000), vec![]),
        (&rising, 10_000, Height(0), vec![]),
        (&rising, 10_000, Height(1), height(Down)),
        (&rising, 10_000, Height(2), height(Up)),
        (
            &quarters,
            10_000,
            Litres(2_500),
            vec![(AboveEven, Down), (OffMiddle, Down)],
        ),
        (
            &quarters,
            10_000,
            Litres(7_500),
            vec![(AboveEven, Up), (OffMiddle, Up)],
        ),
        (&quarters, 10_000, Height(3), height(Down)),
        (
            &short,
            9_998,
            Litres(49_995),
            vec![(AboveEven, Down), (Middle, Down), (ShortGap, Down)],
        ),
        (&short, 9_998, Height(102), height(Up)),
        (&short, 9_998, Height(100), vec![]),
    ] {
        let case = LookupCase {
            dh: 50_000,
            step,
            table: table.to_vec(),
            asked,
        };
        let figure = case.answer().unwrap();
        assert_eq!(Looked::of_lookup(&case, figure), wanted, "{case:?}");
    }
}

/// Each is counted both ways.
#[test]
fn both_ways() {
    assert_eq!(<(Rounded, Half)>::all().len(), 20);
    assert_eq!(<(Looked, Half)>::all().len(), 12);
    assert_eq!((Rounded::Wall, Down).name(), "a wall, down");
    assert_eq!((Rounded::Wall, Up).name(), "a wall, up");
}

/// Of small quotients: a number that makes a half, whenever there is one.
#[test]
fn numbers_that_make_halves() {
    let mut random = Random::new(17);
    for top in 0..=30 {
        for bottom in 1..=30 {
            let one = Quotient { top, bottom };
            for (low, high) in [(0, 40), (1, 5), (7, 7), (10, 20)] {
                let made = factor_of_half(&mut random, one, Limits { low, high });
                let makes_half = |number: u32| 2 * (u128::from(number) * top % bottom) == bottom;
                match made {
                    Some(number) => {
                        assert!(low <= number && number <= high);
                        assert!(makes_half(number), "{number} {one:?}");
                    }
                    None => assert!(!(low..=high).any(makes_half), "{one:?} {low} {high}"),
                }
            }
        }
    }
}

/// The generated cases come to each, both ways.
#[test]
fn generated_halves() {
    let mut halves = Tally::default();
    let mut falls = Tally::default();
    for (_, tank) in generated_tanks(18) {
        falls.add(Fall::of_tank(&tank));
        if table_of_tank(&tank).is_ok() {
            halves.add(Rounded::of_tank(&tank));
        }
    }
    assert!(halves.least() > 8, "{halves:?}");
    assert!(falls.least() > 8, "{falls:?}");
}

/// So do the lookups.
#[test]
fn generated_halves_of_lookups() {
    let mut halves = Tally::default();
    for number in 0..4_000 {
        let case = lookup_case(19, number);
        if let Ok(figure) = case.answer() {
            halves.add(Looked::of_lookup(&case, figure));
        }
    }
    assert!(halves.least() > 20, "{halves:?}");
}
