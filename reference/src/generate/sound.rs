//! Sound surveys over the whole range of every limit. Most have a small
//! diameter and a wide step, so that their tables are quickly made.

use super::diameters::{courses_of_outer, pair_of_outer};
use super::plan::{Layout, Part, Plan};
use super::{caps, lengths, seams};
use crate::deadwood::Deadwood;
use crate::dimensions::wall;
use crate::format::Format;
use crate::heights::DipHeight;
use crate::limits::{self, LARGEST_FILE};
use crate::random::Random;
use crate::rise::Seams;
use crate::survey::{Course, Survey};

/// A survey that keeps every limit. Now and then the deadwood or the rounding
/// of many courses still leads to refusal 7 or 9.
pub fn sound(random: &mut Random, format: Format) -> Plan {
    let dh = dip_diameter(random);
    let d1 = near_diameter(random, dh);
    let d2 = near_diameter(random, dh);
    let mut plan = with_diameters(random, format, dh, d1, d2);
    let count = deadwood_count(random);
    plan.survey.deadwood = gentle_deadwood(random, &plan, count);
    plan.layout = layout(random, &plan);
    plan
}

/// A sound survey but for deadwood of any size anywhere.
pub fn wild_deadwood(random: &mut Random, format: Format) -> Plan {
    let mut plan = sound(random, format);
    let count = deadwood_count(random);
    plan.survey.deadwood = (0..count)
        .map(|_| wild_item(random, plan.survey.dh))
        .collect();
    plan.layout = layout(random, &plan);
    plan
}

/// A sound survey with as many records in each section as there may be.
pub fn most_records(random: &mut Random, format: Format) -> Plan {
    let dh = random.between(limits::DH.low, 60_000);
    let most = limits::COURSE_COUNT.high;
    let mut plan = with_courses(random, format, dh, [dh; 2], most);
    let count = limits::DEADWOOD_COUNT.high as usize;
    plan.survey.deadwood = gentle_deadwood(random, &plan, count);
    plan.layout = layout(random, &plan);
    plan
}

/// A survey without deadwood with the wished diameters, as near as the
/// circumferences' limits allow.
pub fn with_diameters(random: &mut Random, format: Format, dh: u32, d1: u32, d2: u32) -> Plan {
    let count = course_count(random);
    with_courses(random, format, dh, [d1, d2], count)
}

/// The same with so many courses.
pub fn with_courses(
    random: &mut Random,
    format: Format,
    dh: u32,
    diameters: [u32; 2],
    count: u32,
) -> Plan {
    let seams = |random: &mut Random, courses| seams::sound(random, format, courses);
    planned(random, format, dh, diameters, count, seams)
}

/// The same in today's format with these seams, for a number of courses.
pub fn with_seams(
    random: &mut Random,
    dh: u32,
    d1: u32,
    d2: u32,
    seams: impl Fn(usize) -> Vec<Seams>,
) -> Plan {
    let count = course_count(random);
    let seams = |_: &mut Random, courses| seams(courses);
    planned(random, Format::TODAY, dh, [d1, d2], count, seams)
}

fn planned(
    random: &mut Random,
    format: Format,
    dh: u32,
    [d1, d2]: [u32; 2],
    course_count: u32,
    seams: impl Fn(&mut Random, usize) -> Vec<Seams>,
) -> Plan {
    let kind = random.between(limits::HEAD_KIND.low, limits::HEAD_KIND.high);
    let l1 = l1(random);
    let mut courses = bare_courses(random, l1, course_count);
    let wall = wall(&courses) as u32;
    courses_of_outer(random, &mut courses, d1 + wall);
    let mut seams = seams(random, courses.len());
    seams::onto_readings(&mut courses, &mut seams, dh);
    let (left, right) = pair_of_outer(random, d2 + wall);
    let l3 = head_length(random, kind, d2);
    let mut plan = Plan {
        format,
        survey: Survey {
            kind,
            dh,
            l1,
            left,
            right,
            l2: in_limits(random, limits::L2),
            l3,
            step: step(random),
            courses,
            deadwood: Vec::new(),
            seams,
        },
        layout: Layout::PLAIN,
    };
    plan.layout = layout(random, &plan);
    plan
}

/// L3 of heads of a kind.
pub fn head_length(random: &mut Random, kind: u32, d2: u32) -> u32 {
    if kind == limits::SPHERICAL_CAP {
        caps::sound_length(random, d2)
    } else {
        in_limits(random, limits::l3_limits(kind))
    }
}

/// A number inside limits, often at one of them.
pub fn in_limits(random: &mut Random, limits: limits::Limits) -> u32 {
    match random.between(1, 6) {
        1 => limits.low,
        2 => limits.high,
        _ => random.between(limits.low, limits.high),
    }
}

pub fn dip_diameter(random: &mut Random) -> u32 {
    match random.between(1, 40) {
        1 => limits::DH.high,
        2 => random.between(limits::DH.low, limits::DH.high),
        3..=6 => limits::DH.low,
        7..=12 => random.between(60_000, 120_000),
        _ => random.between(50_000, 60_000),
    }
}

/// A diameter inside its limits and at most 10,000 from DH.
pub fn near_diameter(random: &mut Random, dh: u32) -> u32 {
    let low = (dh - 10_000).max(limits::DIAMETER.low);
    let high = (dh + 10_000).min(limits::DIAMETER.high);
    match random.between(1, 10) {
        1 => low,
        2 => high,
        3..=4 => dh,
        5..=6 => random.between(dh.saturating_sub(9).max(low), (dh + 9).min(high)),
        _ => random.between(low, high),
    }
}

fn l1(random: &mut Random) -> u32 {
    match random.between(1, 8) {
        1 => limits::L1.low,
        2 => limits::L1.high,
        3..=5 => random.between(100_000, 400_000),
        _ => random.between(limits::L1.low, limits::L1.high),
    }
}

pub fn step(random: &mut Random) -> u32 {
    match random.between(1, 40) {
        1 => limits::STEP.low,
        2 => random.between(100, 1_000),
        3..=10 => limits::STEP.high,
        11..=14 => random.pick(&[9_999, 5_000, 2_500, 6_250]),
        _ => random.between(3_000, 10_000),
    }
}

fn course_count(random: &mut Random) -> u32 {
    match random.between(1, 10) {
        1..=4 => 1,
        5..=7 => random.between(2, 5),
        8 => limits::COURSE_COUNT.high,
        _ => random.between(1, limits::COURSE_COUNT.high),
    }
}

/// Courses with lengths and thicknesses, and no circumferences yet.
fn bare_courses(random: &mut Random, l1: u32, count: u32) -> Vec<Course> {
    let thickness = in_limits(random, limits::THICKNESS);
    lengths::near_l1(random, l1, count)
        .into_iter()
        .map(|length| Course {
            first: 0,
            second: 0,
            length,
            thickness: if random.one_in(3) {
                in_limits(random, limits::THICKNESS)
            } else {
                thickness
            },
        })
        .collect()
}

fn deadwood_count(random: &mut Random) -> usize {
    match random.between(1, 20) {
        1..=5 => 0,
        6..=13 => random.index(1, 5),
        14..=15 => limits::DEADWOOD_COUNT.high as usize,
        _ => random.index(1, 64),
    }
}

/// Deadwood that hardly ever makes a row fall: what takes room away lies
/// between an eighth and seven eighths of DH and is small beside the shell
/// there; what adds room is of any size.
pub fn gentle_deadwood(random: &mut Random, plan: &Plan, count: usize) -> Vec<Deadwood> {
    (0..count)
        .map(|_| match random.between(1, 3) {
            1 => added_room(random, plan.survey.dh),
            _ => small_item(random, plan, count as u32),
        })
        .collect()
}

fn added_room(random: &mut Random, dh: u32) -> Deadwood {
    let mut item = wild_item(random, dh);
    item.volume = -item.volume.abs();
    item
}

fn small_item(random: &mut Random, plan: &Plan, count: u32) -> Deadwood {
    let low = random.between(plan.survey.dh / 8, plan.survey.dh / 2);
    let high = random.between(low + plan.survey.dh / 4, plan.survey.dh / 8 * 7);
    let most = small_volume(plan, high - low, count);
    Deadwood {
        low: DipHeight(low),
        high: DipHeight(high),
        volume: random.between(0, most) as i32,
    }
}

/// The most that each of so many items may take from a band in the middle of the
/// tank so as to be small beside the shell there. Half the diameter times the
/// length is less than the shell's section.
pub fn small_volume(plan: &Plan, height: u32, count: u32) -> u32 {
    let band = u64::from(plan.survey.dh / 2) * u64::from(plan.survey.l1) * u64::from(height);
    let most = band / 10_000_000_000 / (2 * u64::from(count));
    most.clamp(1, limits::DEADWOOD_VOLUME as u64) as u32
}

fn wild_item(random: &mut Random, dh: u32) -> Deadwood {
    let low = match random.between(1, 6) {
        1 => 0,
        2 => dh - 1,
        _ => random.between(0, dh - 1),
    };
    let high = match random.between(1, 6) {
        1 => dh,
        2 => low + 1,
        _ => random.between(low + 1, dh),
    };
    let size = match random.between(1, 6) {
        1 => limits::DEADWOOD_VOLUME,
        2 => random.between(0, 3) as i32,
        3 => random.between(0, limits::DEADWOOD_VOLUME as u32) as i32,
        _ => random.between(0, 2_000) as i32,
    };
    Deadwood {
        low: DipHeight(low),
        high: DipHeight(high),
        volume: if random.one_in(2) { size } else { -size },
    }
}

/// Sections in any order, touching or apart, at any offset; files up to the
/// largest.
pub fn layout(random: &mut Random, plan: &Plan) -> Layout {
    let mut layout = Layout {
        order: order(random),
        gaps: [gap(random), gap(random), gap(random)],
        gap_after: gap(random),
        empty_offset: random.pick(&[0, 0, 47, 48, 56, 64, u32::MAX, 0x8000_0000]),
        filler: random.any(),
    };
    let planned = Plan {
        layout,
        ..plan.clone()
    };
    let room = LARGEST_FILE - planned.bytes_without_last_gap();
    match random.between(1, 60) {
        1 => layout.gap_after = room,
        2 => layout.gaps[0] += room - layout.gap_after,
        3 => layout.gaps[random.index(1, 2)] += room - layout.gap_after,
        _ => {}
    }
    layout
}

/// One of the six orders of three sections, the header's as often as any other.
fn order(random: &mut Random) -> [Part; 3] {
    let mut order = Part::ALL;
    order.swap(0, random.index(0, 2));
    order.swap(1, random.index(1, 2));
    order
}

fn gap(random: &mut Random) -> usize {
    match random.between(1, 6) {
        1 => random.index(1, 3),
        2 => random.index(4, 40),
        _ => 0,
    }
}
