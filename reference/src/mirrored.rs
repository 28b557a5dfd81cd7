//! Request E7: "Surveyors check a table by turning it over." Of which tanks its law
//! on rows speaks, and how far the mirrored rows of a table are off; also for counting
//! how often each was tried.

use crate::counted::{counted, Counted};
use crate::gross::Tank;
use crate::heights::DipHeight;
use crate::limits::SPHERICAL_CAP;
use crate::rows::row_heights;
use crate::survey::Survey;

/// "two mirrored heights' gross rows sum to the full gross within 3 v". Before
/// rounding each of the three parts sums exactly. Of a part three numbers are rounded,
/// each by a half at most, so that it is off by one at most.
pub const WITHIN: i64 = 3;

counted! {
    /// What a tank breaks of the premises "D1 = D2 = DH, no deadwood and kind 0 or 1".
    pub enum Broken {
        ShellDiameter => "D1 is not DH",
        HeadDiameter => "D2 is not DH",
        Deadwood => "there is deadwood",
        HeadKind => "heads are spherical caps",
    }
}

impl Broken {
    /// All that a tank breaks of them.
    pub fn of_tank(tank: &Tank) -> Vec<Broken> {
        let Tank {
            survey, dimensions, ..
        } = tank;
        let breaks = |broken: &Broken| match broken {
            Broken::ShellDiameter => dimensions.d1 != survey.dh,
            Broken::HeadDiameter => dimensions.d2 != survey.dh,
            Broken::Deadwood => !survey.deadwood.is_empty(),
            Broken::HeadKind => survey.kind == SPHERICAL_CAP,
        };
        Broken::all().into_iter().filter(breaks).collect()
    }
}

/// The height as far below DH as this one is above 0.
pub fn mirrored(height: DipHeight, dh: u32) -> DipHeight {
    DipHeight(dh - height.0)
}

/// Two rows at mirrored heights, or the one in the middle taken twice.
#[derive(Clone, Copy, Debug, PartialEq, Eq)]
pub struct Pair {
    pub lower: DipHeight,
    /// The sum of both rows less the last row, in v.
    pub off: i64,
}

impl Pair {
    /// All pairs of a table, each once, from row 0 with the last row on. If DH is no
    /// multiple of the step, these two are the only pair.
    pub fn of_table(survey: &Survey, rows: &[u32]) -> Vec<Pair> {
        let heights = row_heights(survey.dh, survey.step);
        assert_eq!(heights.len(), rows.len(), "a row stands at each height");
        let row_at = |height| {
            let index = heights.binary_search(&height).ok()?;
            Some(i64::from(rows[index]))
        };
        let full = row_at(DipHeight(survey.dh)).expect("the last row is at DH");
        let pair = |&lower: &DipHeight| {
            let upper = mirrored(lower, survey.dh);
            let both = row_at(lower)? + row_at(upper)?;
            let off = both - full;
            (lower <= upper).then_some(Pair { lower, off })
        };
        heights.iter().filter_map(pair).collect()
    }

    pub fn is_within(self) -> bool {
        self.off.abs() <= WITHIN
    }

    /// A pair of a tank's table that the law forbids, if it speaks of the tank and there
    /// is one.
    pub fn forbidden(tank: &Tank, rows: &[u32]) -> Option<Pair> {
        if !Broken::of_tank(tank).is_empty() {
            return None;
        }
        let pairs = Pair::of_table(&tank.survey, rows);
        pairs.into_iter().find(|pair| !pair.is_within())
    }
}

/// How far, in v, a pair within the law is off.
#[derive(Clone, Copy, Debug, PartialEq, Eq, PartialOrd, Ord)]
pub struct Off(pub i64);

impl Counted for Off {
    fn all() -> Vec<Off> {
        (-WITHIN..=WITHIN).map(Off).collect()
    }

    fn name(self) -> String {
        format!("{} v", self.0)
    }
}

/// What a tank breaks alone, where a pair of its rows is off by more than the law
/// allows.
#[derive(Clone, Copy, Debug, PartialEq, Eq, PartialOrd, Ord)]
pub struct FarOff(pub Broken);

impl FarOff {
    /// That of the table with these pairs. Spherical caps are left out: hardly ever are
    /// mirrored heights so far off for them (`tests/mirrored.rs`).
    pub fn of_pairs(broken: Broken, pairs: &[Pair]) -> Option<FarOff> {
        let far = pairs.iter().any(|pair| !pair.is_within());
        (far && broken != Broken::HeadKind).then_some(FarOff(broken))
    }
}

impl Counted for FarOff {
    fn all() -> Vec<FarOff> {
        use Broken::*;
        [ShellDiameter, HeadDiameter, Deadwood].map(FarOff).to_vec()
    }

    fn name(self) -> String {
        self.0.name()
    }
}
