//! How long tables with spherical caps take, by the library, against a
//! straightforward Rust version of the heads' rows alone.

use crate::domes::Dome;
use crate::float_root::float_root;
use crate::tanks::{self, Capped};
use crate::timing::{medians, milliseconds, nanoseconds_each, Run, RUNS};
use compare::calls::{self, TableAnswer};
use reference::heights::corrected;
use reference::rows::{row_heights, MOST_ROWS};
use std::hint::black_box;

/// The largest takes so long that it is run less often.
const RUNS_OF_LARGEST: usize = 11;
const RUNS_BY_SIZE: usize = 31;

/// Prints all times of tables with spherical caps.
pub fn print_times() {
    println!("\nSpherical caps, no deadwood: the library's whole table, with caps and with flat");
    println!("heads, and the heads' rows alone by a straightforward Rust version that does the");
    println!("same cells, without overflow checks. That one has its roots from u64::isqrt, or,");
    println!("for information, from the root of an f64, put right if it is one off. Both give");
    println!("the library's rows. The four are run by turns, the common tank's {RUNS} times, the");
    println!("others {RUNS_OF_LARGEST} times.\n");

    println!("                                 library ms        Rust ms");
    println!("    D2      L3   rows     cells    caps    flat   isqrt   float   caps/isqrt   (caps-flat)/isqrt   caps/(flat+float)");
    against_rust(
        &tanks::largest_capped(500_000, 250_000, 100),
        RUNS_OF_LARGEST,
    );
    // here the last cells are cut short, and few discs have a whole square
    against_rust(
        &tanks::largest_capped(499_999, 249_987, 100),
        RUNS_OF_LARGEST,
    );
    against_rust(&tanks::common_capped(), RUNS);

    println!("\nThe library with caps, by rows and by cells ({RUNS_BY_SIZE} times by turns)");
    println!("    D2      L3   rows     cells      ms   ns per cell");
    by_size([
        tanks::largest_capped(500_000, 250_000, 100),
        tanks::largest_capped(500_000, 250_000, 1_000),
        tanks::largest_capped(500_000, 125_000, 100),
        tanks::largest_capped(250_000, 125_000, 100),
    ]);
}

/// Prints a line with the times of the library and of the Rust version.
fn against_rust(tank: &Capped, runs: usize) {
    let answer = answer(tank);
    let dome = dome(tank, answer);
    let heights = heights_in_heads(tank, answer);
    check_heads(tank, &dome.rows(&heights, u64::isqrt));
    check_heads(tank, &dome.rows(&heights, float_root));
    let times = medians(
        runs,
        [
            library(&tank.caps),
            library(&tank.flat),
            Box::new(|| {
                black_box(black_box(dome).rows(black_box(&heights), u64::isqrt));
            }),
            Box::new(|| {
                black_box(black_box(dome).rows(black_box(&heights), float_root));
            }),
        ],
    );
    let [caps, flat, isqrt, float] = times.map(milliseconds);
    println!(
        "{} {caps:>7.2} {flat:>7.2} {isqrt:>7.2} {float:>7.2} {:>12.3} {:>19.3} {:>19.3}",
        size(answer, dome),
        caps / isqrt,
        (caps - flat) / isqrt,
        caps / (flat + float)
    );
}

/// Prints a line with the time of the library for each tank.
fn by_size<const N: usize>(tanks: [Capped; N]) {
    let runs = tanks.each_ref().map(|tank| library(&tank.caps));
    for (tank, time) in tanks.iter().zip(medians(RUNS_BY_SIZE, runs)) {
        let answer = answer(tank);
        let dome = dome(tank, answer);
        println!(
            "{} {:>7.2} {:>13.2}",
            size(answer, dome),
            milliseconds(time),
            nanoseconds_each(time, dome.cells())
        );
    }
}

/// The first columns of a line.
fn size(answer: TableAnswer, dome: Dome) -> String {
    format!(
        "{:>6} {:>7} {:>6} {:>9}",
        dome.d,
        dome.h,
        answer.rows,
        dome.cells()
    )
}

fn dome(tank: &Capped, answer: TableAnswer) -> Dome {
    Dome {
        d: answer.d2.into(),
        h: tank.l3.into(),
    }
}

/// Where the rows stand in the heads.
fn heights_in_heads(tank: &Capped, answer: TableAnswer) -> Vec<u64> {
    row_heights(tank.dh, tank.step)
        .iter()
        .map(|&height| corrected(height, answer.d2, tank.dh).0.into())
        .collect()
}

/// Gross adds up by parts, so the heads' rows are what the table with caps has
/// more than that with flat heads.
fn check_heads(tank: &Capped, heads: &[u64]) {
    let caps = table(&tank.caps).1;
    let flat = table(&tank.flat).1;
    assert_eq!([caps.len(), flat.len()], [heads.len(); 2]);
    for ((caps, flat), &heads) in caps.iter().zip(flat).zip(heads) {
        assert_eq!(u64::from(caps - flat), heads, "the heads differ");
    }
}

fn answer(tank: &Capped) -> TableAnswer {
    table(&tank.caps).0
}

/// The library's answer and rows.
fn table(survey: &[u8]) -> (TableAnswer, Vec<u32>) {
    let mut table = vec![0; MOST_ROWS];
    let answer = calls::table(survey, &mut table);
    assert_eq!(answer.refusal, 0, "{answer:?}");
    table.truncate(answer.rows as usize);
    (answer, table)
}

/// The library's table, to be timed.
fn library(survey: &[u8]) -> Run<'_> {
    let mut table = vec![0; MOST_ROWS];
    Box::new(move || {
        black_box(calls::table(black_box(survey), black_box(&mut table)));
    })
}
