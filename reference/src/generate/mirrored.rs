//! Surveys for turning their tables over (request E7): such as its law on rows speaks
//! of, and such as break one of its premises.

use super::diameters::exact;
use super::plan::Plan;
use super::{lengths, sound};
use crate::counted::Counted;
use crate::format::Format;
use crate::heights::ShellHeight;
use crate::limits::{l3_limits, Limits, DH, L1, L2, SPHERICAL_CAP};
use crate::mirrored::Broken;
use crate::numbers::Quotient;
use crate::random::Random;
use crate::volumes::{doubled_areas, flanges, heads, shell};

/// A survey that meets the premises. At a pair of its rows, if there is one beside row
/// 0 and the last, each part is off as wished: in half of them all the same way.
pub fn meeting(random: &mut Random) -> Plan {
    let mut plan = planned(random, None);
    if plan.survey.dh.is_multiple_of(plan.survey.step) {
        let way = random.pick(&[-1, 0, 1]);
        let ways = if random.one_in(2) {
            [way; 3]
        } else {
            [way, random.pick(&[-1, 0, 1]), random.pick(&[-1, 0, 1])]
        };
        put_off(random, &mut plan, ways);
    }
    plan
}

/// A survey that breaks one of them alone, each as often as any other.
pub fn breaking(random: &mut Random) -> Plan {
    let broken = random.pick(&Broken::all());
    planned(random, Some(broken))
}

fn planned(random: &mut Random, broken: Option<Broken>) -> Plan {
    let (dh, step) = heights(random);
    let [d1, d2] = match broken {
        Some(Broken::ShellDiameter) => [other_diameter(random, dh), dh],
        Some(Broken::HeadDiameter) => [dh, other_diameter(random, dh)],
        _ => [dh; 2],
    };
    let kind = match broken {
        Some(Broken::HeadKind) => SPHERICAL_CAP,
        _ => random.between(0, 1),
    };
    let mut plan = exact(random, Format::TODAY, dh, [d1, d2]);
    plan.survey.step = step;
    plan.survey.kind = kind;
    plan.survey.l3 = sound::head_length(random, kind, d2);
    if broken == Some(Broken::Deadwood) {
        let count = random.index(1, 5);
        plan.survey.deadwood = sound::gentle_deadwood(random, &plan, count);
        plan.layout = sound::layout(random, &plan);
    }
    plan
}

/// DH and a step. In most surveys DH is a multiple of it, so that there is a row at
/// each mirrored height.
fn heights(random: &mut Random) -> (u32, u32) {
    let dh = sound::dip_diameter(random);
    let step = sound::step(random);
    if random.one_in(8) {
        return (dh, step);
    }
    let highest = DH.high / step * step;
    (dh.next_multiple_of(step).min(highest), step)
}

fn other_diameter(random: &mut Random, dh: u32) -> u32 {
    loop {
        let diameter = sound::near_diameter(random, dh);
        if diameter != dh {
            return diameter;
        }
    }
}

/// Gives shell, flanges and heads lengths with which each is off so much at one pair
/// of rows.
fn put_off(random: &mut Random, plan: &mut Plan, [of_shell, of_flanges, of_heads]: [i64; 3]) {
    let survey = &mut plan.survey;
    let d = survey.dh;
    let areas = doubled_areas(d);
    let area = |height: ShellHeight| areas[height.0 as usize];
    let lower = survey.step * random.between(1, d / survey.step / 2);
    let at = [lower, d - lower, d].map(ShellHeight);

    let volume = |height, l1| shell(area(height), l1);
    let l1 = length_off(random, L1, at, of_shell, volume);
    lengths::put_l1(random, survey, l1);
    let volume = |height, l2| flanges(area(height), l2);
    survey.l2 = length_off(random, L2, at, of_flanges, volume);
    let volume = |height, l3| heads(d, height, l3);
    survey.l3 = length_off(random, l3_limits(survey.kind), at, of_heads, volume);
}

/// A length inside limits with which a part's volumes at the first two heights sum,
/// rounded, to so much more than at the third: about every eighth does. Flat heads have
/// none.
fn length_off(
    random: &mut Random,
    limits: Limits,
    at: [ShellHeight; 3],
    wished: i64,
    volume: impl Fn(ShellHeight, u32) -> Quotient,
) -> u32 {
    let off = |length: u32| {
        let [lower, upper, full] = at.map(|height| volume(height, length).nearest() as i64);
        lower + upper - full
    };
    (0..100)
        .map(|_| sound::in_limits(random, limits))
        .find(|&length| off(length) == wished)
        .unwrap_or(limits.high)
}
