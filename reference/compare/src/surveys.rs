//! Surveys: the whole answer, every lent cell, and the words for a refusal.

use crate::seen::{print_tally, Seen};
use crate::turned::Turned;
use crate::words::Words;
use compare::calls::{self, TableAnswer};
use reference::below_zero::BelowZero;
use reference::caps::Cap;
use reference::counted::Tally;
use reference::generate::{case, Case};
use reference::gross::Tank;
use reference::halves::falls::Fall;
use reference::halves::Rounded;
use reference::mirrored::Pair;
use reference::misses::Miss;
use reference::numbers::Half;
use reference::rises::Rise;
use reference::table::{fill, lay_out, table_of_tank};
use reference::{Format, Refusal, Table};
use std::path::Path;

/// Cells before and behind the lent table, which no call may touch.
const AROUND: usize = 8;

/// The refusals that a survey with its table can bring, and how many sentences: those
/// that the programs have but for the two of lookups, and that of a short table.
const REFUSALS: [u32; 10] = [1, 2, 3, 4, 5, 6, 7, 8, 9, 14];
const SENTENCES: usize = 36;

/// What a program answers, and the memory that it was lent with what stands
/// around it.
#[derive(PartialEq, Eq)]
struct Outcome {
    answer: TableAnswer,
    memory: Vec<u32>,
}

impl Outcome {
    fn is_table(&self) -> bool {
        self.answer.refusal == 0
    }

    /// The rows of a table.
    fn rows(&self) -> &[u32] {
        &self.memory[AROUND..AROUND + self.answer.rows as usize]
    }
}

/// What the compared surveys were.
pub struct Tried {
    refusals: Seen,
    misses: Tally<Miss>,
    caps: Tally<Cap>,
    rises: Tally<Rise>,
    halves: Tally<(Rounded, Half)>,
    falls: Tally<Fall>,
    below_zero: Tally<BelowZero>,
    turned: Turned,
    words: Words,
}

impl Tried {
    /// None yet.
    pub fn new() -> Tried {
        Tried {
            refusals: Seen::new(REFUSALS),
            misses: Tally::default(),
            caps: Tally::default(),
            rises: Tally::default(),
            halves: Tally::default(),
            falls: Tally::default(),
            below_zero: Tally::default(),
            turned: Turned::new(),
            words: Words::new(REFUSALS, SENTENCES),
        }
    }

    /// Counts a survey with its tank, if it could be laid out, and its refusal, if
    /// any.
    fn add(&mut self, survey: &[u8], tank: Option<&Tank>, refusal: Option<Refusal>) {
        let number = refusal.map_or(0, |refusal| refusal.number);
        self.refusals.add(number);
        self.misses.add(Miss::of_survey(survey));
        self.caps.add(Cap::of_survey(survey, number));
        self.rises.add(Rise::of_survey(survey, refusal));
        if let Some(tank) = tank {
            self.falls.add(Fall::of_tank(tank));
            match number {
                0 => self.halves.add(Rounded::of_tank(tank)),
                _ => self.below_zero.add(BelowZero::of_tank(tank)),
            }
        }
    }

    /// Prints all of it, and says whether it was often enough.
    pub fn print(&self) -> bool {
        let refusals = self.refusals.print("surveys");
        let misses = print_tally(
            "surveys by how much their course lengths miss L1",
            &self.misses,
        );
        let caps = print_tally("surveys with spherical caps", &self.caps);
        let rises = print_tally("surveys by their seams", &self.rises);
        let halves = print_tally("surveys with exact halves", &self.halves);
        let falls = print_tally("surveys with exact halves at a fall", &self.falls);
        let below_zero = print_tally("surveys with a net row below zero", &self.below_zero);
        let turned = self.turned.print();
        let words = self.words.print("surveys");
        refusals && misses && caps && rises && halves && falls && below_zero && turned && words
    }
}

/// Compares the first cases of a seed; returns how many differ.
pub fn compare(seed: u64, cases: u64, folder: &Path, tried: &mut Tried) -> u64 {
    let mut mismatches = 0;
    for number in 0..cases {
        let case = case(seed, number);
        let ours = outcome(&case, calls::table);
        let tank = lay_out(&case.survey, Format::TODAY, case.table_len);
        let made = tank.as_ref().map_err(|&refusal| refusal);
        let made = made.and_then(table_of_tank);
        let refusal = made.as_ref().err().copied();
        tried.add(&case.survey, tank.as_ref().ok(), refusal);
        let reference = outcome(&case, |_, table| by_reference(made, table));
        // If the two differ in the row count, no cell can be said to be a certain row.
        let forbidden = match &tank {
            Ok(tank) if ours.is_table() && ours.answer == reference.answer => {
                tried.turned.add(tank, ours.rows());
                Pair::forbidden(tank, ours.rows())
            }
            _ => None,
        };
        if ours != reference || forbidden.is_some() {
            mismatches += 1;
            report(seed, number, &ours, &reference);
            report_forbidden(forbidden);
            keep(folder, &format!("survey-{seed}-{number}"), &case.survey);
        }
        let words = calls::words(&case.survey, case.table_len);
        let same = tried
            .words
            .same(&words, &case.survey, Format::TODAY, refusal);
        if !same {
            mismatches += 1;
            println!("  of the survey with seed {seed}, number {number}");
            keep(folder, &format!("words-{seed}-{number}"), &case.survey);
        }
    }
    mismatches
}

/// Writes a survey to a file of the folder.
pub fn keep(folder: &Path, name: &str, survey: &[u8]) {
    std::fs::write(folder.join(name), survey).expect("a survey can be written");
}

fn outcome(case: &Case, make: impl FnOnce(&[u8], &mut [u32]) -> TableAnswer) -> Outcome {
    let mut memory = cells(case.table_len + 2 * AROUND);
    let lent = &mut memory[AROUND..AROUND + case.table_len];
    let answer = make(&case.survey, lent);
    Outcome { answer, memory }
}

/// So many cells, no two alike, so that a cell copied to another is seen.
pub fn cells(count: usize) -> Vec<u32> {
    (0..count).map(|index| 0xa500_0000 + index as u32).collect()
}

fn by_reference(made: Result<Table, Refusal>, table: &mut [u32]) -> TableAnswer {
    let answer = fill(made, table);
    TableAnswer {
        refusal: answer.number,
        place: answer.place,
        d1: answer.d1,
        d2: answer.d2,
        rows: answer.rows,
    }
}

fn report(seed: u64, number: u64, ours: &Outcome, reference: &Outcome) {
    println!("MISMATCH: survey, seed {seed}, number {number}");
    println!("  ours      {:?}", ours.answer);
    println!("  reference {:?}", reference.answer);
    let cells = ours.memory.iter().zip(&reference.memory);
    if let Some((index, (our, their))) = cells.enumerate().find(|(_, (a, b))| a != b) {
        let cell = index as i64 - AROUND as i64;
        println!("  first at cell {cell}: ours {our}, reference {their}");
    }
}

/// Prints a pair of mirrored rows that request E7 forbids, if there is one.
fn report_forbidden(forbidden: Option<Pair>) {
    if let Some(Pair { lower, off }) = forbidden {
        println!("  turned over at {}: off by {off} v", lower.0);
    }
}
