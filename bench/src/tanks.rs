//! The surveys whose tables are timed.

use reference::deadwood::Deadwood;
use reference::format::Format;
use reference::generate::plan::{Layout, Plan};
use reference::heights::DipHeight;
use reference::limits::{FLAT, SPHERICAL_CAP};
use reference::rise::Seams;
use reference::survey::{Course, Survey};

const THICKNESS: u32 = 500;

/// The head kind between those two.
const HALF_ELLIPSOID: u32 = 1;

/// What the largest table is made of: every count and length at its limit.
pub fn largest(dh: u32, step: u32) -> Vec<u8> {
    survey(largest_size(dh, step))
}

/// A tank such as stands at a filling station.
pub fn common() -> Vec<u8> {
    survey(common_size())
}

/// A tank with spherical caps, and the same one with flat heads. Neither has
/// deadwood, so their rows are gross and differ by the heads' rows.
pub struct Capped {
    pub dh: u32,
    pub l3: u32,
    pub step: u32,
    pub caps: Vec<u8>,
    pub flat: Vec<u8>,
}

/// The largest tank with spherical caps. D2 comes out as DH, so these are at
/// most half of that long.
pub fn largest_capped(dh: u32, l3: u32, step: u32) -> Capped {
    capped(largest_size(dh, step), l3)
}

/// The common tank with spherical caps.
pub fn common_capped() -> Capped {
    let size = common_size();
    capped(size, size.l3)
}

fn capped(size: Size, l3: u32) -> Capped {
    let with_heads = |kind, l3| {
        survey(Size {
            kind,
            l3,
            deadwood: 0,
            ..size
        })
    };
    Capped {
        dh: size.dh,
        l3,
        step: size.step,
        caps: with_heads(SPHERICAL_CAP, l3),
        flat: with_heads(FLAT, 0),
    }
}

#[derive(Clone, Copy)]
struct Size {
    kind: u32,
    dh: u32,
    step: u32,
    l1: u32,
    l2: u32,
    l3: u32,
    courses: u32,
    deadwood: u32,
}

fn largest_size(dh: u32, step: u32) -> Size {
    Size {
        kind: HALF_ELLIPSOID,
        dh,
        step,
        l1: 3_000_000,
        l2: 20_000,
        l3: 250_000,
        courses: 40,
        deadwood: 64,
    }
}

fn common_size() -> Size {
    Size {
        kind: HALF_ELLIPSOID,
        dh: 260_000,
        step: 1_000,
        l1: 900_000,
        l2: 4_000,
        l3: 65_000,
        courses: 6,
        deadwood: 4,
    }
}

/// A survey with D1 and D2 near DH.
fn survey(size: Size) -> Vec<u8> {
    let outer = size.dh + 2 * THICKNESS;
    // rounded down, so that no diameter passes its limit
    let circumference = (u64::from(outer) * 355 / 113) as u32;
    let course = Course {
        first: circumference,
        second: circumference,
        length: size.l1 / size.courses,
        thickness: THICKNESS,
    };
    let survey = Survey {
        kind: size.kind,
        dh: size.dh,
        l1: size.l1,
        left: circumference,
        right: circumference,
        l2: size.l2,
        l3: size.l3,
        step: size.step,
        courses: vec![course; size.courses as usize],
        deadwood: (0..size.deadwood)
            .map(|item| fitting(size.dh, item))
            .collect(),
        seams: vec![Seams::NONE; size.courses as usize],
    };
    let plan = Plan {
        format: Format::TODAY,
        survey,
        layout: Layout::PLAIN,
    };
    plan.encode()
}

/// A small fitting in the wide part of the tank, so that no row falls.
fn fitting(dh: u32, item: u32) -> Deadwood {
    let low = dh / 4 + item * (dh / 400);
    Deadwood {
        low: DipHeight(low),
        high: DipHeight(low + dh / 8),
        volume: 200,
    }
}
