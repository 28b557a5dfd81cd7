//! Rows at which the volume of a part is an exact half.

use super::factor_of_half;
use crate::format::Format;
use crate::generate::diameters::exact;
use crate::generate::plan::Plan;
use crate::generate::{lengths, sound};
use crate::heights::ShellHeight;
use crate::limits::{Limits, L1, L2, L3_CURVED, SPHERICAL_CAP};
use crate::numbers::Quotient;
use crate::random::Random;
use crate::volumes::{doubled_areas, flanges as flange_volume, heads, shell as shell_volume};

/// A part of a diameter, filled to a height.
#[derive(Clone, Copy, Debug, PartialEq, Eq)]
pub struct Filled {
    pub d: u32,
    pub h: ShellHeight,
}

/// Spherical caps of which a row is an exact half, each with its length L3, halves
/// that go down before halves that go up. Where levels and lengths are whole mm, a
/// row's cubic u are a multiple of 10^4, so one such row in a million is one; these
/// were found by the search in `tests/halves.rs`.
pub const CAPS: [(Filled, u32); 16] = [
    (filled(56_767, 2_900), 100),
    (filled(54_417, 36_280), 100),
    (filled(52_779, 44_650), 1_100),
    (filled(50_628, 38_225), 2_000),
    (filled(51_005, 45_480), 920),
    (filled(50_305, 5_100), 10_126),
    (filled(52_236, 40_800), 14_900),
    (filled(59_733, 49_800), 2),
    (filled(53_315, 6_300), 100),
    (filled(59_675, 10_860), 100),
    (filled(59_635, 13_895), 300),
    (filled(50_045, 38_030), 1_800),
    (filled(57_974, 39_750), 1_200),
    (filled(59_033, 24_900), 7_792),
    (filled(54_117, 21_320), 17_231),
    (filled(57_687, 39_000), 16_600),
];

const fn filled(d: u32, h: u32) -> Filled {
    Filled {
        d,
        h: ShellHeight(h),
    }
}

pub fn shell(random: &mut Random, format: Format) -> Plan {
    let (part, l1) = straight(random, shell_volume, L1);
    let mut plan = with_row(random, format, part, |d1, d2| [d1, d2]);
    lengths::put_l1(random, &mut plan.survey, l1);
    plan
}

pub fn flanges(random: &mut Random, format: Format) -> Plan {
    let (part, l2) = straight(random, flange_volume, L2);
    let mut plan = with_row(random, format, part, |d2, d1| [d1, d2]);
    plan.survey.l2 = l2;
    plan
}

pub fn ellipsoids(random: &mut Random, format: Format) -> Plan {
    let (part, l3) = ellipsoid(random);
    with_heads(random, format, part, 1, l3)
}

pub fn caps(random: &mut Random, format: Format) -> Plan {
    let (part, l3) = random.pick(&CAPS);
    with_heads(random, format, part, SPHERICAL_CAP, l3)
}

fn with_heads(random: &mut Random, format: Format, part: Filled, kind: u32, l3: u32) -> Plan {
    let mut plan = with_row(random, format, part, |d2, d1| [d1, d2]);
    plan.survey.kind = kind;
    plan.survey.l3 = l3;
    plan
}

/// A survey with this part, a row at the height to which it is filled, and another
/// diameter near it for the other parts; which of the two is D1 and which D2 is
/// told by `d1_d2`.
fn with_row(
    random: &mut Random,
    format: Format,
    part: Filled,
    d1_d2: impl Fn(u32, u32) -> [u32; 2],
) -> Plan {
    let step = random.pick(&[1_000, 2_500, 4_000, 4_999, 5_000]);
    // The next row at or above the height is as much above it as half of DH is
    // above half of the diameter, at most 5,000; half of an odd difference is
    // rounded down, so DH may be one less.
    let above = part.h.0.next_multiple_of(step) - part.h.0;
    let less = if above > 0 { random.between(0, 1) } else { 0 };
    let dh = part.d + 2 * above - less;
    let other = sound::near_diameter(random, dh);
    let mut plan = exact(random, format, dh, d1_d2(part.d, other));
    plan.survey.step = step;
    plan
}

/// A height in a straight part and a length that make an exact half of its volume.
/// The length of the flanges has room for six fives (15,625), and 10^10 has ten:
/// so the area has four at least, of which there are some in most diameters.
fn straight(
    random: &mut Random,
    volume: impl Fn(u64, u32) -> Quotient,
    limits: Limits,
) -> (Filled, u32) {
    loop {
        let d = random.between(50_000, 60_000);
        let areas = doubled_areas(d);
        let lowest = random.between(1, d);
        for h in lowest..=d {
            let area = areas[h as usize];
            if area.is_multiple_of(625) {
                if let Some(length) = factor_of_half(random, volume(area, 1), limits) {
                    return (filled(d, h), length);
                }
            }
        }
    }
}

/// The same of half-ellipsoids: with D2 a round number or one that 113 divides, and
/// a height that is a round part of it.
fn ellipsoid(random: &mut Random) -> (Filled, u32) {
    loop {
        let unit = random.pick(&[100, 500, 1_000, 113, 565, 1_130]);
        let d = unit * random.between(50_000_u32.div_ceil(unit), 120_000 / unit);
        let parts = random.pick(&[1, 2, 4, 5, 10]);
        let h = d / parts * random.between(1, parts);
        let one = heads(d, ShellHeight(h), 1);
        if let Some(length) = factor_of_half(random, one, L3_CURVED) {
            return (filled(d, h), length);
        }
    }
}
