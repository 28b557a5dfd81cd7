//! How often each refusal, each thing that files try and each of the sentences was
//! seen.

use reference::counted::{Counted, Tally};
use std::collections::BTreeMap;

/// Fewer than this say little of a refusal.
const ENOUGH: u64 = 50;

/// The answers to one kind of call, by their refusal; 0 is an answer without
/// one.
pub struct Seen {
    counts: BTreeMap<u32, u64>,
}

impl Seen {
    /// None yet, for a call that can give these refusals.
    pub fn new(refusals: impl IntoIterator<Item = u32>) -> Seen {
        let refusals = refusals.into_iter().chain([0]);
        Seen {
            counts: refusals.map(|refusal| (refusal, 0)).collect(),
        }
    }

    /// Counts an answer. A refusal that the call cannot give ends the comparison.
    pub fn add(&mut self, refusal: u32) {
        let count = self.counts.get_mut(&refusal);
        *count.unwrap_or_else(|| panic!("this call cannot give refusal {refusal}")) += 1;
    }

    /// Prints the counts, and says whether each was seen often enough.
    pub fn print(&self, what: &str) -> bool {
        self.print_with("accepted", what)
    }

    /// The same with a name of its own for an answer without a refusal.
    pub fn print_with(&self, without: &str, what: &str) -> bool {
        println!("{what}: {} compared", self.counts.values().sum::<u64>());
        let mut often_enough = true;
        for (&refusal, &count) in &self.counts {
            let name = match refusal {
                0 => without.to_string(),
                _ => format!("refusal {refusal}"),
            };
            let too_few = count < ENOUGH;
            println!(
                "  {name}: {count}{}",
                if too_few { ", TOO FEW" } else { "" }
            );
            often_enough &= !too_few;
        }
        often_enough
    }
}

/// Prints how often each of some things was tried, on one line, and says whether
/// that was often enough.
pub fn print_tally<T: Counted>(what: &str, tally: &Tally<T>) -> bool {
    let told: Vec<String> = tally
        .counts()
        .map(|(name, count)| {
            let too_few = if count < ENOUGH { ", TOO FEW" } else { "" };
            format!("{name}: {count}{too_few}")
        })
        .collect();
    println!("{what}");
    println!("  {}", told.join("; "));
    tally.least() >= ENOUGH
}

/// The sentences on standard error or in answers, each with its numbers left out.
pub struct Sentences {
    counts: BTreeMap<String, u64>,
    /// How many there are.
    all: usize,
}

impl Sentences {
    /// None yet of so many.
    pub fn new(all: usize) -> Sentences {
        Sentences {
            counts: BTreeMap::new(),
            all,
        }
    }

    /// Counts every line of a standard error, or an answer's words, if any.
    pub fn add(&mut self, told: &str) {
        for line in told.lines() {
            *self.counts.entry(without_numbers(line)).or_default() += 1;
        }
    }

    /// Prints how many there are and the one seen least, and says whether all
    /// were seen often enough.
    pub fn print(&self, what: &str) -> bool {
        let seen = self.counts.len();
        println!("{what}: {seen} of {} seen", self.all);
        if let Some((sentence, &least)) = self.counts.iter().min_by_key(|(_, &count)| count) {
            let too_few = if least < ENOUGH { ", TOO FEW" } else { "" };
            println!("  least often, {least} times{too_few}: {sentence}");
            seen == self.all && least >= ENOUGH
        } else {
            false
        }
    }
}

/// A line without the numbers that surveys bring into it, so that two lines of
/// one kind are alike. A digit of a name stays, as in D1 and D2.
fn without_numbers(line: &str) -> String {
    let words = line.split(' ').map(|word| {
        let inner = word.trim_start_matches(['(', '-']);
        match inner.starts_with(|first: char| first.is_ascii_digit()) {
            true if word.starts_with('(') => "(_",
            true => "_",
            false => word,
        }
    });
    words.collect::<Vec<_>>().join(" ")
}
