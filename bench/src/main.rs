//! How long tables take, by the proved library and by the reference, and those
//! with spherical caps against plain Rust. Nothing is held to a time. With the
//! word `survey` it writes the largest survey instead.

mod caps;
mod domes;
mod float_root;
mod tanks;
mod timing;

use compare::calls::{self, TableAnswer};
use reference::fill_table;
use reference::rows::MOST_ROWS;
use std::hint::black_box;
use std::io::Write;
use std::time::Duration;
use timing::{median, milliseconds, nanoseconds_each, RUNS};

fn main() {
    if std::env::args().nth(1).as_deref() == Some("survey") {
        let survey = tanks::largest(500_000, 100);
        std::io::stdout()
            .write_all(&survey)
            .expect("standard output is closed");
        return;
    }
    println!("Every time is the median of {RUNS} runs where no other number is given; both");
    println!("programs are optimised, the reference with overflow checks. The library walks");
    println!("up the shell once, D1 levels, and up the flanges once, D2 levels, and stops at");
    println!("each row. The reference does not start at the bottom for each row: it lays the");
    println!("doubled area out at every level, each with a root of its own, and picks the");
    println!("rows from that. The time per shell level is the whole time divided by D1.\n");

    println!("                             rows   library ms   reference ms   times as long   ns per shell level");
    both("the largest, DH 500,000", &tanks::largest(500_000, 100));
    both("a common one, DH 260,000", &tanks::common());

    println!("\nThe library, by diameter (the largest tank, step 100)");
    println!("      DH     rows       ms   ns per shell level");
    for dh in [50_000, 125_000, 250_000, 500_000] {
        ours(&format!("{dh:>8}"), &tanks::largest(dh, 100));
    }

    println!("\nThe library, by rows (the largest tank, DH 500,000)");
    println!("    step     rows       ms   ns per shell level");
    for step in [10_000, 1_000, 500, 200, 100] {
        ours(&format!("{step:>8}"), &tanks::largest(500_000, step));
    }

    caps::print_times();
}

/// Prints a line with the times of both.
fn both(name: &str, survey: &[u8]) {
    let (answer, time) = library(survey);
    let mut table = vec![0; MOST_ROWS];
    let slower = median(|| {
        black_box(fill_table(black_box(survey), black_box(&mut table)));
    });
    println!(
        "{name:<26} {:>6}   {:>10.3}   {:>12.3}   {:>13.2}   {:>18.2}",
        answer.rows,
        milliseconds(time),
        milliseconds(slower),
        slower.as_secs_f64() / time.as_secs_f64(),
        nanoseconds_each(time, answer.d1.into())
    );
}

/// Prints a line with the time of the library.
fn ours(name: &str, survey: &[u8]) {
    let (answer, time) = library(survey);
    println!(
        "{name} {:>8} {:>8.3}   {:>18.2}",
        answer.rows,
        milliseconds(time),
        nanoseconds_each(time, answer.d1.into())
    );
}

/// The library's answer and time, once its table is seen to be the
/// reference's.
fn library(survey: &[u8]) -> (TableAnswer, Duration) {
    let mut table = vec![0; MOST_ROWS];
    let mut expected = vec![0; MOST_ROWS];
    let answer = calls::table(survey, &mut table);
    assert_eq!(answer.refusal, 0, "{answer:?}");
    assert_eq!(answer.rows, fill_table(survey, &mut expected).rows);
    assert!(table == expected, "the tables differ");
    let time = median(|| {
        black_box(calls::table(black_box(survey), black_box(&mut table)));
    });
    (answer, time)
}
