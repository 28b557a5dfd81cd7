//! What of a tank was an exact half before it was rounded: for counting how often
//! each was tried, and which way it went by request E5.

pub mod falls;
pub mod lookups;

use crate::counted::{counted, Counted};
use crate::deadwood::size_of_share;
use crate::dimensions::{end_outer_quotient, shell_outer_quotient, wall_quotient};
use crate::gross::Tank;
use crate::heights::DipHeight;
use crate::limits::SPHERICAL_CAP;
use crate::numbers::{Half, Quotient};
use crate::rows::row_heights;
use std::collections::BTreeSet;

counted! {
    /// Something that is rounded to the nearest whole number.
    pub enum Rounded {
        ShellDiameter => "an outer diameter of the shell",
        EndDiameter => "an outer diameter of the ends",
        Wall => "a wall",
        FirstTerm => "a first term of the tape rise",
        Shell => "a row's shell",
        Flanges => "a row's flanges",
        Ellipsoids => "a row's half-ellipsoids",
        Caps => "a row's spherical caps",
        DeadwoodTaken => "a share of deadwood that takes room away",
        DeadwoodAdded => "a share of deadwood that adds room",
    }
}

use Rounded::*;

/// Each thing that is an exact half counts by the way it goes.
impl<T: Counted> Counted for (T, Half) {
    fn all() -> Vec<(T, Half)> {
        T::all()
            .into_iter()
            .flat_map(|thing| [(thing, Half::Down), (thing, Half::Up)])
            .collect()
    }

    fn name(self) -> String {
        let (thing, half) = self;
        let way = match half {
            Half::Down => "down",
            Half::Up => "up",
        };
        format!("{}, {way}", thing.name())
    }
}

impl Rounded {
    /// All exact halves of a tank, each once.
    pub fn of_tank(tank: &Tank) -> BTreeSet<(Rounded, Half)> {
        let survey = &tank.survey;
        let rows = row_heights(survey.dh, survey.step)
            .into_iter()
            .flat_map(|height| in_row(tank, height));
        halves(of_dimensions(tank)).chain(rows).collect()
    }
}

/// All that is rounded before there are rows.
fn of_dimensions(tank: &Tank) -> Vec<(Rounded, Quotient)> {
    let survey = &tank.survey;
    let mut rounded = vec![
        (
            ShellDiameter,
            shell_outer_quotient(&survey.corrected_courses()),
        ),
        (EndDiameter, end_outer_quotient(survey.left, survey.right)),
        (Wall, wall_quotient(&survey.courses)),
    ];
    for seams in &survey.seams {
        rounded.push((FirstTerm, seams.first_quotient(survey.dh)));
    }
    rounded
}

/// The exact halves of one row.
fn in_row(tank: &Tank, height: DipHeight) -> impl Iterator<Item = (Rounded, Half)> + '_ {
    let heads = if tank.survey.kind == SPHERICAL_CAP {
        Caps
    } else {
        Ellipsoids
    };
    let parts = [Shell, Flanges, heads].into_iter().zip(tank.parts(height));
    let shares = tank.survey.deadwood.iter().map(move |item| {
        let rounded = if item.volume < 0 {
            DeadwoodAdded
        } else {
            DeadwoodTaken
        };
        (rounded, size_of_share(item, height))
    });
    halves(parts.chain(shares))
}

/// Those that are exact halves, and which way they go.
fn halves(
    rounded: impl IntoIterator<Item = (Rounded, Quotient)>,
) -> impl Iterator<Item = (Rounded, Half)> {
    rounded
        .into_iter()
        .filter_map(|(rounded, quotient)| Some((rounded, quotient.half()?)))
}
