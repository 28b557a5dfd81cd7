//! "Gross = shell + flanges + heads."

use crate::dimensions::Dimensions;
use crate::domes::{Dome, Domes};
use crate::heights::{corrected, DipHeight, ShellHeight};
use crate::limits::SPHERICAL_CAP;
use crate::numbers::Quotient;
use crate::survey::Survey;
use crate::volumes::{doubled_areas, flanges, heads, shell};

/// A tank with the doubled areas of its shell and of its flanges, and the cells
/// of spherical caps, laid out.
pub struct Tank {
    pub survey: Survey,
    pub dimensions: Dimensions,
    shell_areas: Vec<u64>,
    flange_areas: Vec<u64>,
    pub domes: Option<Domes>,
}

impl Tank {
    pub fn new(survey: &Survey, dimensions: Dimensions) -> Tank {
        let dome = Dome {
            d: dimensions.d2,
            h: survey.l3,
        };
        Tank {
            survey: survey.clone(),
            dimensions,
            shell_areas: doubled_areas(dimensions.d1),
            flange_areas: doubled_areas(dimensions.d2),
            domes: (survey.kind == SPHERICAL_CAP).then(|| Domes::new(dome)),
        }
    }

    /// The height in the shell at a dip height from 0 to DH.
    pub fn h1(&self, height: DipHeight) -> ShellHeight {
        corrected(height, self.dimensions.d1, self.survey.dh)
    }

    /// The height in flanges and heads.
    pub fn h2(&self, height: DipHeight) -> ShellHeight {
        corrected(height, self.dimensions.d2, self.survey.dh)
    }

    /// The gross volume in v; each part is rounded on its own.
    pub fn gross(&self, height: DipHeight) -> u64 {
        let parts = self.parts(height);
        parts.iter().map(|part| part.nearest() as u64).sum()
    }

    /// The volumes in v of shell, flanges and heads, unrounded.
    pub fn parts(&self, height: DipHeight) -> [Quotient; 3] {
        let h1 = self.h1(height);
        let h2 = self.h2(height);
        let heads = match &self.domes {
            Some(domes) => domes.row(h2),
            None => heads(self.dimensions.d2, h2, self.survey.l3),
        };
        [
            shell(self.shell_areas[h1.0 as usize], self.survey.l1),
            flanges(self.flange_areas[h2.0 as usize], self.survey.l2),
            heads,
        ]
    }
}
