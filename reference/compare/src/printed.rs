//! What `tanktable` and `tanklookup` print, byte by byte: standard output and
//! standard error.

use crate::run::{Runs, Tell};
use crate::seen::{Seen, Sentences};
use crate::surveys::keep;
use reference::generate::case;
use reference::printed::{Asked, Opened};
use reference::random::Random;
use reference::text::two_decimals;
use std::path::Path;

/// How many sentences there are: two for refusal 1, three for 2, six for 3,
/// eighteen for 5, two for 7, one for each of 4, 6, 9, 12, 13 and 14.
const SENTENCES: usize = 37;

/// The programs that are compared with the reference.
pub struct Programs<'a> {
    pub table: &'a Path,
    pub lookup: &'a Path,
}

/// What was compared so far.
pub struct Comparison<'a> {
    programs: Programs<'a>,
    runs: Runs<'a>,
    /// Surveys by their refusal.
    surveys: Seen,
    /// Answers of lookups in accepted surveys, by their refusal.
    lookups: Seen,
    sentences: Sentences,
}

impl Comparison<'_> {
    /// Refusal 8 is not among those that can occur: the programs have room
    /// enough for every table.
    pub fn new<'a>(programs: Programs<'a>, folder: &'a Path, tell: Tell) -> Comparison<'a> {
        Comparison {
            programs,
            runs: Runs::new(folder, "given.survey", tell),
            surveys: Seen::new([1, 2, 3, 4, 5, 6, 7, 9, 14]),
            lookups: Seen::new([12, 13]),
            sentences: Sentences::new(SENTENCES),
        }
    }

    /// Compares what the programs print for the first cases of a seed: for
    /// every refused survey, which costs little, and for the accepted ones up
    /// to a number of them. Returns how many runs differ.
    pub fn compare(&mut self, seed: u64, cases: u64, most_accepted: u64) -> u64 {
        let mut accepted = 0;
        for number in 0..cases {
            let survey = case(seed, number).survey;
            let opened = Opened::new(&survey);
            if opened.accepted().is_some() {
                accepted += 1;
                if accepted > most_accepted {
                    continue;
                }
            }
            let before = self.runs.mismatches();
            self.survey(&survey, &opened, &mut Random::for_case(seed, number));
            if self.runs.mismatches() > before {
                (self.runs.tell)(format!("  of the survey with seed {seed}, number {number}"));
                let name = format!("printed-{seed}-{number}");
                keep(self.runs.folder, &name, &survey);
            }
        }
        self.runs.end();
        self.runs.mismatches()
    }

    /// Prints what was seen, and says whether it was often enough.
    pub fn print(&self) -> bool {
        let surveys = self.surveys.print("printed surveys");
        let lookups = self.lookups.print("printed lookups in accepted surveys");
        let sentences = self.sentences.print("sentences for refusals");
        println!("runs of the programs: {}", self.runs.count());
        surveys && lookups && sentences
    }

    /// The table and the lookups of one survey. A refused survey's sentence is
    /// the same in all of them, and counted once.
    fn survey(&mut self, survey: &[u8], opened: &Opened, random: &mut Random) {
        self.runs.give(survey);
        let refusal = opened.refusal().map_or(0, |refusal| refusal.number);
        let table = opened.table();
        self.surveys.add(refusal);
        self.sentences.add(&table.error);
        self.runs
            .run(self.programs.table, &[], survey, random, table);
        for asked in questions(opened, random) {
            let lookup = opened.lookup(&asked);
            if opened.accepted().is_some() {
                self.sentences.add(&lookup.error);
                for line in lookup.output.lines() {
                    self.lookups.add(refusal_of(line));
                }
            }
            let words = words(&asked, random);
            self.runs
                .run(self.programs.lookup, &words, survey, random, lookup);
        }
    }
}

/// What is asked of a survey: some heights, some volumes, and what was
/// delivered, both ways round.
fn questions(opened: &Opened, random: &mut Random) -> Vec<Asked> {
    let (highest, most) = match opened.accepted() {
        Some(accepted) => (accepted.survey.dh, accepted.last_row()),
        None => (500_000, 1_000_000),
    };
    let heights = some(highest, random);
    let volumes = some(most, random);
    let first = past_sometimes(highest, random);
    let second = match random.between(0, 7) {
        0 => first,
        _ => past_sometimes(highest, random),
    };
    let delivered = |before, after| Asked::Delivered { before, after };
    vec![
        Asked::LitresAt(heights),
        Asked::HeightFor(volumes),
        delivered(first, second),
        delivered(second, first),
    ]
}

/// One to five figures.
fn some(most: u32, random: &mut Random) -> Vec<u32> {
    (0..random.between(1, 5))
        .map(|_| past_sometimes(most, random))
        .collect()
}

/// From 0 to `most`; once in eight times `most`, one more, or far more.
fn past_sometimes(most: u32, random: &mut Random) -> u32 {
    match random.between(0, 7) {
        0 => random.pick(&[most, most + 1, u32::MAX]),
        _ => random.between(0, most),
    }
}

/// What is asked, as words for a program.
fn words(asked: &Asked, random: &mut Random) -> Vec<String> {
    let (what, figures) = match asked {
        Asked::LitresAt(heights) => ("litres", heights.clone()),
        Asked::HeightFor(volumes) => ("height", volumes.clone()),
        &Asked::Delivered { before, after } => ("delivered", vec![before, after]),
    };
    let figures = figures.into_iter().map(|figure| written(figure, random));
    std::iter::once(what.to_string()).chain(figures).collect()
}

/// A figure with two decimals, or without zeros at its end where it has them.
fn written(figure: u32, random: &mut Random) -> String {
    let text = two_decimals(figure);
    if random.one_in(2) {
        return text;
    }
    let fewer = text.strip_suffix('0').unwrap_or(&text);
    fewer.strip_suffix(".0").unwrap_or(fewer).to_string()
}

/// The refusal in a line of a lookup, or 0.
fn refusal_of(line: &str) -> u32 {
    let number = line
        .strip_prefix("refused ")
        .and_then(|rest| rest.split(' ').next());
    number.map_or(0, |number| number.parse().expect("a refusal has a number"))
}
