//! Lookups: the whole answer.

use crate::seen::{print_tally, Seen};
use compare::calls::{self, LookupAnswer};
use reference::counted::Tally;
use reference::generate::lookups::{lookup_case, Asked, LookupCase};
use reference::halves::lookups::Looked;
use reference::numbers::Half;

/// What the compared lookups were.
pub struct Tried {
    refusals: Seen,
    halves: Tally<(Looked, Half)>,
}

impl Tried {
    /// None yet.
    pub fn new() -> Tried {
        Tried {
            refusals: Seen::new(11..=13),
            halves: Tally::default(),
        }
    }

    fn add(&mut self, case: &LookupCase, answer: LookupAnswer) {
        self.refusals.add(answer.refusal);
        if answer.refusal == 0 {
            self.halves.add(Looked::of_lookup(case, answer.figure));
        }
    }

    /// Prints all of it, and says whether it was often enough.
    pub fn print(&self) -> bool {
        let refusals = self.refusals.print("lookups");
        let halves = print_tally("lookups that exact halves decide", &self.halves);
        refusals && halves
    }
}

/// Compares the first cases of a seed; returns how many differ.
pub fn compare(seed: u64, cases: u64, tried: &mut Tried) -> u64 {
    let mut mismatches = 0;
    for number in 0..cases {
        let case = lookup_case(seed, number);
        let ours = by_library(&case);
        let reference = by_reference(&case);
        tried.add(&case, reference);
        if ours != reference {
            mismatches += 1;
            println!("MISMATCH: lookup, seed {seed}, number {number}");
            println!("  ours      {ours:?}");
            println!("  reference {reference:?}");
        }
    }
    mismatches
}

fn by_library(case: &LookupCase) -> LookupAnswer {
    match case.asked {
        Asked::Litres(height) => calls::litres(case.dh, case.step, &case.table, height),
        Asked::Height(volume) => calls::height(case.dh, case.step, &case.table, volume),
    }
}

fn by_reference(case: &LookupCase) -> LookupAnswer {
    match case.answer() {
        Ok(figure) => LookupAnswer {
            refusal: 0,
            place: 0,
            figure,
        },
        Err(refusal) => LookupAnswer {
            refusal: refusal.number,
            place: refusal.place,
            figure: 0,
        },
    }
}
