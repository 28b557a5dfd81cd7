//! Runs the proved library and the reference over the same generated cases and
//! compares every number of every answer, every cell of every lent table, every
//! byte of every converted file and of the words for every refusal, and what the
//! programs write on standard output and on standard error.
//!
//! `compare TANKTABLE TANKLOOKUP TANKCONVERT FOLDER`: the paths of the programs,
//! and a folder for the survey given by `-f` and those on which the two differ.
//! Ends with 1 if they differ anywhere, if a table of the library's breaks request E7's
//! law on mirrored rows, or if a refusal, a sentence, a miss of the course lengths, an
//! edge of spherical caps, of seams, of conversions or of headers of other lengths, an
//! exact half, a row below zero or a difference of mirrored rows that can occur was seen
//! too seldom.
//!
//! What `tanktable` and `tanklookup` write takes about as long to compare as all the
//! rest, so that has a thread of its own. It prints nothing: what it finds is printed
//! after the rest, and a run prints the same every time.

mod conversions;
mod lookups;
mod printed;
mod run;
mod seen;
mod surveys;
mod turned;
mod words;

use printed::{Comparison, Programs};
use std::panic::resume_unwind;
use std::path::{Path, PathBuf};
use std::sync::mpsc;
use std::thread;

/// How many cases there are of each seed.
const SURVEYS: u64 = 5_000;
const LOOKUPS: u64 = 10_000;
const OLD: u64 = 2_000;
const PRINTED: u64 = 13_000;

/// How many of the accepted surveys are printed, and how many of the old ones of
/// a seed are converted by the program.
const PRINTED_ACCEPTED: u64 = 500;
const OLD_ACCEPTED: u64 = 150;

const SURVEY_SEEDS: [u64; 4] = [1, 2, 3, 4];
const LOOKUP_SEEDS: [u64; 4] = [11, 12, 13, 14];
const OLD_SEEDS: [u64; 2] = [31, 32];
const PRINTED_SEED: u64 = 21;

fn main() {
    let mut words = std::env::args_os().skip(1).map(PathBuf::from);
    let mut next = || words.next();
    let (Some(table), Some(lookup), Some(convert), Some(folder), None) =
        (next(), next(), next(), next(), next())
    else {
        eprintln!("usage: compare TANKTABLE TANKLOOKUP TANKCONVERT FOLDER");
        std::process::exit(2);
    };
    let programs = Programs {
        table: &table,
        lookup: &lookup,
    };

    std::fs::create_dir_all(&folder).expect("the folder for surveys can be made");
    let (sender, told) = mpsc::channel();
    let tell = Box::new(move |line| sender.send(line).expect("what is told is printed"));
    let mut printed = Comparison::new(programs, &folder, tell);

    let (mismatches, often_enough) = thread::scope(|scope| {
        let beside = scope.spawn(|| printed.compare(PRINTED_SEED, PRINTED, PRINTED_ACCEPTED));
        let (mismatches, often_enough) = all_but_printed(&convert, &folder);
        // What it found before a panic is printed too.
        let ended = beside.join();
        told.try_iter().for_each(|line: String| println!("{line}"));
        let of_printed = ended.unwrap_or_else(|panic| resume_unwind(panic));
        (mismatches + of_printed, often_enough)
    });
    let often_enough = printed.print() && often_enough;
    // A folder that holds surveys on which the two differ stays.
    let _ = std::fs::remove_dir(&folder);

    println!("mismatches: {mismatches}");
    if mismatches != 0 || !often_enough {
        std::process::exit(1);
    }
}

/// Compares surveys, lookups and conversions. Returns how many differ, and whether all
/// that can occur was seen often enough.
fn all_but_printed(convert: &Path, folder: &Path) -> (u64, bool) {
    let mut mismatches = 0;
    let mut tried = surveys::Tried::new();
    for seed in SURVEY_SEEDS {
        mismatches += surveys::compare(seed, SURVEYS, folder, &mut tried);
    }
    let mut often_enough = tried.print();

    let mut tried = lookups::Tried::new();
    for seed in LOOKUP_SEEDS {
        mismatches += lookups::compare(seed, LOOKUPS, &mut tried);
    }
    often_enough &= tried.print();

    let mut conversions = conversions::Comparison::new(convert, folder);
    for seed in OLD_SEEDS {
        conversions.compare(seed, OLD, OLD_ACCEPTED);
    }
    mismatches += conversions.mismatches();
    often_enough &= conversions.print();
    (mismatches, often_enough)
}
