//! Deterministic cases for comparing programs. Case `number` of a seed is
//! always the same bytes.
//!
//! A case is made in three steps: a plan of a survey (sound, with diameters at
//! their limits, with spherical caps as long as can be or longer, with seams or
//! corrected readings at an edge, with deadwood that makes a row fall, almost fall
//! or fall below zero, with exact halves, or for turning its table over), then none
//! to three kinds of damage to its bytes, then a length for the table. A case for the
//! converter is made likewise, in the old format and without a table.

pub mod caps;
pub mod damage;
pub mod diameters;
pub mod falling;
pub mod halves;
pub mod lengths;
pub mod lookups;
pub mod mirrored;
pub mod plan;
pub mod seams;
pub mod sound;

use crate::format::Format;
use crate::headers;
use crate::limits::{COURSE_BYTES, DEADWOOD_BYTES, SEAM_BYTES};
use crate::random::Random;
use crate::rows::{row_count, MOST_ROWS};
use plan::{Part, Plan};

/// A survey of any bytes and the length of the table lent for it.
#[derive(Clone, Debug, PartialEq, Eq)]
pub struct Case {
    pub survey: Vec<u8>,
    pub table_len: usize,
}

/// Case `number` of a seed.
pub fn case(seed: u64, number: u64) -> Case {
    let random = &mut Random::for_case(seed, number);
    if random.one_in(60) {
        return Case {
            survey: any_bytes(random, Format::TODAY),
            table_len: MOST_ROWS,
        };
    }
    // A survey with halves or for turning over is not damaged: refused for something
    // else it would not come to that.
    let (plan, whole) = match random.between(1, 40) {
        1..=5 => (halves::halves(random, Format::TODAY), true),
        6..=8 => (mirrored::meeting(random), true),
        9..=11 => (mirrored::breaking(random), true),
        _ => (any_plan(random), false),
    };
    let survey = if whole {
        plan.encode()
    } else {
        encoded(random, &plan)
    };
    let table_len = table_len(random, &plan);
    Case { survey, table_len }
}

/// Case `number` of a seed for the converter: a file of the old format.
pub fn old_case(seed: u64, number: u64) -> Vec<u8> {
    let random = &mut Random::for_case(seed, number);
    if random.one_in(60) {
        return any_bytes(random, Format::Header48);
    }
    let plan = old_plan(random);
    encoded(random, &plan)
}

/// The bytes of a header that no old survey has, for asking about case `number` of
/// a seed: half of them edges, the others of any number of bits. They come of a
/// source of their own, so that every kind of survey meets each of them.
pub fn other_header(seed: u64, number: u64) -> u32 {
    let random = &mut Random::for_case(!seed, number);
    if random.one_in(2) {
        return random.pick(&headers::EDGES);
    }
    let most = u32::MAX >> random.between(0, 31);
    match random.between(0, most) {
        48 => 49,
        bytes => bytes,
    }
}

/// A sound survey and a table long enough for it: most are accepted.
pub fn sound_case(seed: u64, number: u64) -> Case {
    let random = &mut Random::for_case(seed, number);
    let plan = sound::sound(random, Format::TODAY);
    Case {
        survey: plan.encode(),
        table_len: row_count(plan.survey.dh, plan.survey.step),
    }
}

fn any_plan(random: &mut Random) -> Plan {
    match random.between(1, 20) {
        1..=3 => seams::at_edges(random),
        _ => plan_of(random, Format::TODAY),
    }
}

/// One in 20 has as many records as there may be, for the largest file that the
/// converter writes.
fn old_plan(random: &mut Random) -> Plan {
    match random.between(1, 20) {
        1 => sound::most_records(random, Format::Header48),
        2 => halves::halves(random, Format::Header48),
        _ => plan_of(random, Format::Header48),
    }
}

/// A plan as there are some in each format.
fn plan_of(random: &mut Random, format: Format) -> Plan {
    match random.between(1, 40) {
        1..=5 => diameters::at_limits(random, format),
        6..=7 => falling::below_zero(random, format),
        8..=12 => falling::falling(random, format),
        13..=15 => caps::at_longest(random, format),
        16 => sound::most_records(random, format),
        17..=18 => sound::wild_deadwood(random, format),
        _ => sound::sound(random, format),
    }
}

/// The bytes of a plan, damaged or not.
fn encoded(random: &mut Random, plan: &Plan) -> Vec<u8> {
    let mut survey = plan.encode();
    for _ in 0..damage_count(random, plan.format) {
        damage::damage(random, plan, &mut survey);
    }
    survey
}

/// Nearly half of the plans stay whole, of old ones, of which there are fewer,
/// a third; a few get more than one damage, to try the order of refusals.
fn damage_count(random: &mut Random, format: Format) -> u32 {
    let whole = match format {
        Format::Header48 => 6,
        Format::Header56 => 9,
    };
    match random.between(1, 20) {
        count if count <= whole => 0,
        ..=17 => 1,
        18..=19 => 2,
        _ => 3,
    }
}

/// Mostly enough: exact, one more, or more; else one too few or none at all.
fn table_len(random: &mut Random, plan: &Plan) -> usize {
    let exact = row_count(plan.survey.dh, plan.survey.step);
    match random.between(1, 24) {
        1 => exact - 1,
        2 => random.pick(&[0, 1, exact / 2]),
        3..=6 => exact + 1,
        7..=10 => exact + random.index(0, 50),
        11 => MOST_ROWS,
        _ => exact,
    }
}

/// Bytes without a plan; half of them with counts and offsets that lead past
/// refusals 2 and 3.
fn any_bytes(random: &mut Random, format: Format) -> Vec<u8> {
    let length = random.index(0, 300);
    let mut survey = random.bytes(length);
    let courses = format.header_bytes();
    let deadwood = courses + COURSE_BYTES;
    let seams = deadwood + DEADWOOD_BYTES;
    if length >= seams + SEAM_BYTES && random.one_in(2) {
        let deadwood_count = random.pick(&[0, 1]);
        let mut sections = vec![
            (Part::Courses, 1, courses),
            (Part::Deadwood, deadwood_count, deadwood),
        ];
        if format.has_seams() {
            sections.push((Part::Seams, 1, seams));
        }
        for (part, count, offset) in sections {
            plan::put(&mut survey, part.count_at(), count);
            plan::put(&mut survey, part.offset_at(), offset as u32);
        }
        let kind = random.between(0, 3);
        plan::put(&mut survey, 0, kind);
    }
    survey
}
