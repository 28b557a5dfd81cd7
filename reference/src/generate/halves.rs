//! Surveys in which something is an exact half before it is rounded: dimensions,
//! the tape rise, rows' parts, and shares of deadwood.

pub mod deadwood;
pub mod dimensions;
pub mod lookups;
pub mod volumes;

use super::plan::Plan;
use super::{falling, seams};
use crate::format::Format;
use crate::limits::Limits;
use crate::numbers::Quotient;
use crate::random::Random;

/// A survey with at least one exact half; many have several, also in one row.
pub fn halves(random: &mut Random, format: Format) -> Plan {
    let mut plan = match random.between(1, 16) {
        1..=2 => volumes::shell(random, format),
        3..=4 => volumes::flanges(random, format),
        5..=6 => volumes::ellipsoids(random, format),
        7..=8 => volumes::caps(random, format),
        9..=11 => return falling::at_half(random, format),
        12..=13 if format.has_seams() => seams::half_first_term(random),
        _ => dimensions::halves(random, format),
    };
    if random.one_in(2) {
        deadwood::add(random, &mut plan);
    }
    plan
}

/// A number inside limits that makes an exact half of a quotient if that is taken
/// so many times; often one of the smallest. There is none if there is none inside
/// the limits, or none at all.
///
/// A number n does so when 2·n·top/bottom is odd. In lowest terms the bottom of
/// 2·top/bottom divides n then, so odd times, and the top is odd too.
pub fn factor_of_half(random: &mut Random, one: Quotient, limits: Limits) -> Option<u32> {
    let common = common_divisor(2 * one.top, one.bottom);
    if (2 * one.top / common).is_multiple_of(2) {
        return None;
    }
    let least = u32::try_from(one.bottom / common).ok()?;
    // The odd multiples of the least, by half the multiple: 0 is once, 1 three
    // times.
    let first = limits.low.div_ceil(least) / 2;
    let last = (limits.high / least).checked_sub(1)? / 2;
    if first > last {
        return None;
    }
    let chosen = match random.between(1, 2) {
        1 => random.between(first, last.min(first + 3)),
        _ => random.between(first, last),
    };
    Some(least * (2 * chosen + 1))
}

/// The largest number that divides both; they are not both 0.
fn common_divisor(a: u128, b: u128) -> u128 {
    if b == 0 {
        a
    } else {
        common_divisor(b, a % b)
    }
}
