//! Survey files written by hand for the tests, apart from the generator.
#![allow(dead_code, unused_imports)]

pub mod paper;

pub use paper::*;
use reference::generate::case;
use reference::gross::Tank;
use reference::rise::Seams;
use reference::slabs::{Counts, Slabs};
use reference::survey::{Course, Survey};
use reference::table::lay_out;
use reference::{Format, Refusal};
use std::io::Write;
use std::process::{Command, Output, Stdio};

pub const BOTH_SLABS: [Slabs; 2] = [Slabs::Fitting, Slabs::Covering];

/// The same count for every part.
pub fn counts_of(n: u32) -> Counts {
    Counts {
        shell: n,
        flanges: n,
        heads: n,
        cap_lengths: n,
    }
}

/// Where the paper's survey of today's format has its course, its seams and, if
/// there is any, its deadwood.
pub const COURSE: usize = 56;
pub const SEAMS: usize = 72;
pub const DEADWOOD: usize = 84;

pub fn bytes_of(words: &[u32]) -> Vec<u8> {
    words.iter().flat_map(|word| word.to_le_bytes()).collect()
}

pub fn put(file: &mut [u8], at: usize, word: u32) {
    file[at..at + 4].copy_from_slice(&word.to_le_bytes());
}

/// A refusal's number and place, or (0, 0) for an accepted survey.
pub fn outcome(survey: &[u8], table_len: usize) -> (u32, u32) {
    told(reference::make_table(survey, table_len))
}

/// The same of any answer.
pub fn told<T>(answer: Result<T, Refusal>) -> (u32, u32) {
    match answer {
        Ok(_) => (0, 0),
        Err(refusal) => (refusal.number, refusal.place),
    }
}

/// The tanks of a seed's first 4,000 cases, each with its number; some have none.
pub fn generated_tanks(seed: u64) -> impl Iterator<Item = (u64, Tank)> {
    (0..4_000).filter_map(move |number| {
        let case = case(seed, number);
        let tank = lay_out(&case.survey, Format::TODAY, case.table_len).ok()?;
        Some((number, tank))
    })
}

/// A run of a program with these words and this standard input.
pub fn run_program(program: &str, words: &[&str], input: &[u8]) -> Output {
    let mut child = Command::new(program)
        .args(words)
        .stdin(Stdio::piped())
        .stdout(Stdio::piped())
        .stderr(Stdio::piped())
        .spawn()
        .unwrap();
    // A program that is used wrongly does not read its input.
    let _ = child.stdin.take().unwrap().write_all(input);
    child.wait_with_output().unwrap()
}

/// A tank of these sizes; its diameters are given beside it.
pub fn tank_of(kind: u32, dh: u32, l1: u32, l2: u32, l3: u32) -> Survey {
    Survey {
        kind,
        dh,
        l1,
        left: 150_000,
        right: 150_000,
        l2,
        l3,
        step: 10_000,
        courses: vec![Course {
            first: 150_000,
            second: 150_000,
            length: l1,
            thickness: 100,
        }],
        deadwood: Vec::new(),
        seams: vec![Seams::NONE],
    }
}
