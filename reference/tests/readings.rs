//! Every line of the paper's "Readings off the stick".

mod common;

use common::*;
use reference::deadwood::{share, Deadwood};
use reference::dimensions::{end_outer_diameter, shell_outer_diameter};
use reference::heights::{DipHeight, ShellHeight};
use reference::numbers::{half_down, Quotient};
use reference::printed::Opened;
use reference::rows::{row_count, row_heights, MOST_ROWS};
use reference::survey::Course;
use reference::volumes::{chord, heads};
use reference::{height_for_volume, litres_at_height, make_table};

const PRINTED: &str = "rows 6
0.00 0.00
100.00 27.96
200.00 73.34
300.00 123.01
400.00 168.39
500.00 196.35
";

#[test]
fn chords() {
    assert_eq!(chord(50_000, 0), 0);
    assert_eq!(chord(50_000, 1), 447);
    assert_eq!(chord(50_000, 25_000), 50_000);
}

#[test]
fn halves() {
    assert_eq!(half_down(-3), -2);
    assert_eq!(half_down(3), 1);
}

/// Request E5: "The proved case of 5/2 becomes 2".
#[test]
fn nearest_of_five_halves() {
    assert_eq!(nearest(5, 2), 2);
}

fn nearest(top: u128, bottom: u128) -> u128 {
    Quotient { top, bottom }.nearest()
}

#[test]
fn two_readings_of_160_221() {
    let course = Course {
        first: 160_221,
        second: 160_221,
        length: 100_000,
        thickness: 500,
    };
    assert_eq!(shell_outer_diameter(&[course]), 51_000);
    assert_eq!(end_outer_diameter(160_221, 160_221), 51_000);
}

#[test]
fn head_volumes() {
    let heads = |h2| heads(260_000, ShellHeight(h2), 65_000).nearest();
    assert_eq!(heads(130_000), 230_069);
    assert_eq!(heads(260_000), 460_139);
}

/// Request E5: "the item of volume -1 at its middle takes 0".
#[test]
fn deadwood_shares() {
    let item = |volume| Deadwood {
        low: DipHeight(0),
        high: DipHeight(300),
        volume,
    };
    assert_eq!(share(&item(100), DipHeight(151)), 50);
    assert_eq!(share(&item(-1), DipHeight(150)), 0);
}

#[test]
fn row_counts() {
    assert_eq!(row_count(50_000, 10_000), 6);
    assert_eq!(row_count(50_000, 9_999), 7);
    assert_eq!(row_heights(50_000, 10_000).len(), 6);
    assert_eq!(row_heights(50_000, 9_999).len(), 7);
}

#[test]
fn refusals() {
    assert_eq!(outcome(&PAPER.but(4, 49_999), MOST_ROWS), (5, 4));
    assert_eq!(outcome(&PAPER.survey()[..47], MOST_ROWS), (1, 0));
}

#[test]
fn the_printed_table() {
    assert_eq!(Opened::new(&PAPER.survey()).table().output, PRINTED);
    assert_eq!(
        Opened::new(&PAPER.but(4, 49_999)).table().output,
        "refused 5 4\n"
    );
}

#[test]
fn the_answer_of_that_table() {
    let table = make_table(&PAPER.survey(), 6).unwrap();
    assert_eq!((table.d1, table.d2), (50_000, 50_000));
    assert_eq!(table.rows, [0, 2_796, 7_334, 12_301, 16_839, 19_635]);
}

#[test]
fn lookups_on_that_table() {
    let table = make_table(&PAPER.survey(), 6).unwrap();
    assert_eq!(
        litres_at_height(50_000, 10_000, &table.rows, 5_000),
        Ok(1_398)
    );
    assert_eq!(
        height_for_volume(50_000, 10_000, &table.rows, 1_398),
        Ok(4_999)
    );
}

#[test]
fn the_programs_print_the_same() {
    let table = env!("CARGO_BIN_EXE_reference_table");
    let lookup = env!("CARGO_BIN_EXE_reference_lookup");
    assert_eq!(output(table, &[], &PAPER.survey()), PRINTED);
    assert_eq!(output(table, &[], &PAPER.but(4, 49_999)), "refused 5 4\n");
    assert_eq!(output(table, &[], &PAPER.survey()[..47]), "refused 1 0\n");
    for (words, printed) in [
        (["litres", "50"], "13.98\n"),
        (["litres", "50.00"], "13.98\n"),
        (["height", "13.98"], "49.99\n"),
        (["litres", "500.01"], "refused 12 0\n"),
        (["height", "196.36"], "refused 13 0\n"),
    ] {
        assert_eq!(output(lookup, &words, &PAPER.survey()), printed);
    }
    assert_eq!(
        output(lookup, &["height", "1"], &PAPER.survey()[..47]),
        "refused 1 0\n"
    );
}

/// What a program prints for a survey on its standard input.
fn output(program: &str, words: &[&str], survey: &[u8]) -> String {
    let output = run_program(program, words, survey);
    assert!(output.status.success());
    String::from_utf8(output.stdout).unwrap()
}
