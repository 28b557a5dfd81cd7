//! Tables of the library turned over: how often request E7's law on rows spoke of one.

use crate::seen::print_tally;
use reference::counted::Tally;
use reference::gross::Tank;
use reference::mirrored::{Broken, FarOff, Off, Pair};
use std::collections::BTreeSet;

/// The tables that were turned over.
pub struct Turned {
    /// Those that meet the law's premises, their mirrored pairs of rows, and the least
    /// and the greatest that a pair was off, in v.
    tables: u64,
    pairs: u64,
    least: i64,
    greatest: i64,
    /// The same tables by all that a pair of theirs was off.
    offs: Tally<Off>,
    /// Those that break one premise alone, and such of them as are further off than the
    /// law allows.
    broken: Tally<Broken>,
    far_off: Tally<FarOff>,
}

impl Turned {
    /// None yet.
    pub fn new() -> Turned {
        Turned {
            tables: 0,
            pairs: 0,
            least: i64::MAX,
            greatest: i64::MIN,
            offs: Tally::default(),
            broken: Tally::default(),
            far_off: Tally::default(),
        }
    }

    /// Counts the table that the library made of a tank. Whether the law holds of it is
    /// not judged here.
    pub fn add(&mut self, tank: &Tank, rows: &[u32]) {
        let pairs = Pair::of_table(&tank.survey, rows);
        match Broken::of_tank(tank)[..] {
            [] => self.add_pairs(&pairs),
            [broken] => {
                self.broken.add([broken]);
                self.far_off.add(FarOff::of_pairs(broken, &pairs));
            }
            _ => {}
        }
    }

    /// The pairs of a table that meets the premises.
    fn add_pairs(&mut self, pairs: &[Pair]) {
        self.tables += 1;
        self.pairs += pairs.len() as u64;
        for pair in pairs {
            self.least = self.least.min(pair.off);
            self.greatest = self.greatest.max(pair.off);
        }
        let within = pairs.iter().filter(|pair| pair.is_within());
        let offs: BTreeSet<Off> = within.map(|pair| Off(pair.off)).collect();
        self.offs.add(offs);
    }

    /// Prints all of it, and says whether it was often enough.
    pub fn print(&self) -> bool {
        println!(
            "tables turned over: {} that meet E7's premises, {} pairs of rows off by {} to {} v",
            self.tables, self.pairs, self.least, self.greatest
        );
        let offs = print_tally("these tables by how far a pair is off", &self.offs);
        let broken = print_tally("tables that break one premise alone", &self.broken);
        let far_off = print_tally("these further off than E7 allows", &self.far_off);
        offs && broken && far_off
    }
}
