//! What the generator and the comparison do about tables that are turned over.

mod common;

use common::*;
use reference::counted::{Counted, Tally};
use reference::generate::mirrored::{breaking, meeting};
use reference::gross::Tank;
use reference::heights::DipHeight;
use reference::mirrored::Broken::{self, *};
use reference::mirrored::{FarOff, Off, Pair};
use reference::random::Random;
use reference::rows::MOST_ROWS;
use reference::table::{lay_out, table_of_tank};
use reference::Format;

fn tank(file: &[u8]) -> Tank {
    lay_out(file, Format::TODAY, MOST_ROWS).unwrap()
}

fn pair(lower: u32, off: i64) -> Pair {
    let lower = DipHeight(lower);
    Pair { lower, off }
}

/// All of the paper's diameters are 50,000. Readings of 160,221 and 160,239 give an
/// outer one of 51,002.8, and so an inner one of 50,003.
#[test]
fn premises_of_a_tank() {
    let odd_shell = PAPER.but(COURSE, 160_239);
    let odd_ends = PAPER.but(12, 160_239);
    for (file, wanted) in [
        (PAPER.survey(), vec![]),
        (PAPER.headed(1, 10_000), vec![]),
        (PAPER.but(4, 50_001), vec![ShellDiameter, HeadDiameter]),
        (odd_shell, vec![ShellDiameter]),
        (odd_ends, vec![HeadDiameter]),
        (PAPER.with_deadwood(&[(0, 1, 0)]), vec![Deadwood]),
        (PAPER.headed(2, 10_000), vec![HeadKind]),
    ] {
        assert_eq!(Broken::of_tank(&tank(&file)), wanted);
    }
}

/// Of the paper's table; with a row between in the middle, and with a step of which DH
/// is no multiple, so that only row 0 and the last are mirrored.
#[test]
fn pairs_of_a_table() {
    for (step, rows, wanted) in [
        (
            10_000,
            vec![0, 2_796, 7_334, 12_301, 16_839, 19_635],
            vec![pair(0, 0), pair(10_000, 0), pair(20_000, 0)],
        ),
        (
            10_000,
            vec![7, 10, 20, 30, 40, 50],
            vec![pair(0, 7), pair(10_000, 0), pair(20_000, 0)],
        ),
        (
            10_000,
            vec![0, 10, 20, 33, 46, 50],
            vec![pair(0, 0), pair(10_000, 6), pair(20_000, 3)],
        ),
        (
            6_250,
            vec![0, 1, 2, 3, 4, 5, 6, 7, 12],
            vec![
                pair(0, 0),
                pair(6_250, -4),
                pair(12_500, -4),
                pair(18_750, -4),
                pair(25_000, -4),
            ],
        ),
        (9_999, vec![0, 10, 20, 30, 40, 50, 50], vec![pair(0, 0)]),
    ] {
        let tank = tank(&PAPER.but(28, step));
        assert_eq!(Pair::of_table(&tank.survey, &rows), wanted);
        let far = wanted.into_iter().find(|pair| pair.off.abs() > 3);
        assert_eq!(Pair::forbidden(&tank, &rows), far);
    }
}

/// Of another tank the law forbids nothing.
#[test]
fn no_law_without_premises() {
    let rows = [0, 0, 0, 0, 0, 100];
    assert_eq!(
        Pair::forbidden(&tank(&PAPER.survey()), &rows),
        Some(pair(10_000, -100))
    );
    assert_eq!(Pair::forbidden(&tank(&PAPER.headed(2, 100)), &rows), None);
}

#[test]
fn names() {
    let names: Vec<String> = Off::all().into_iter().map(Off::name).collect();
    assert_eq!(names, ["-3 v", "-2 v", "-1 v", "0 v", "1 v", "2 v", "3 v"]);
    assert_eq!(
        FarOff::all(),
        [ShellDiameter, HeadDiameter, Deadwood].map(FarOff)
    );
    assert_eq!(FarOff(Deadwood).name(), Deadwood.name());
}

/// Only if a pair is off by more than 3 v, and not of caps.
#[test]
fn far_off() {
    for (broken, off, wanted) in [
        (ShellDiameter, 3, None),
        (ShellDiameter, -3, None),
        (ShellDiameter, 4, Some(FarOff(ShellDiameter))),
        (Deadwood, -4, Some(FarOff(Deadwood))),
        (HeadKind, 4, None),
    ] {
        let pairs = [pair(0, 0), pair(100, off)];
        assert_eq!(FarOff::of_pairs(broken, &pairs), wanted);
    }
}

/// What is made for one or the other is that.
#[test]
fn made_for_it() {
    let mut seen = Tally::default();
    for number in 0..400 {
        let plan = meeting(&mut Random::for_case(25, number));
        assert_eq!(Broken::of_tank(&tank(&plan.encode())), []);
        let plan = breaking(&mut Random::for_case(26, number));
        let broken = Broken::of_tank(&tank(&plan.encode()));
        assert_eq!(broken.len(), 1, "{number}");
        seen.add(broken);
    }
    assert!(seen.least() > 60, "{seen:?}");
}

/// The generated cases come to each; the law holds of this program's own tables.
#[test]
fn generated_tables() {
    let mut offs = Tally::default();
    let mut far_off = Tally::default();
    for (number, tank) in generated_tanks(27) {
        let Ok(table) = table_of_tank(&tank) else {
            continue;
        };
        assert_eq!(Pair::forbidden(&tank, &table.rows), None, "{number}");
        let pairs = Pair::of_table(&tank.survey, &table.rows);
        match Broken::of_tank(&tank)[..] {
            [] => offs.add(pairs.iter().map(|pair| Off(pair.off))),
            [broken] => {
                let within = pairs.iter().all(|pair| pair.is_within());
                assert!(within || broken != HeadKind, "{number}");
                far_off.add(FarOff::of_pairs(broken, &pairs));
            }
            _ => {}
        }
    }
    assert!(offs.least() > 10, "{offs:?}");
    assert!(far_off.least() > 20, "{far_off:?}");
}
