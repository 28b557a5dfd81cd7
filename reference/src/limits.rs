//! The limits in the paper's tables under "The survey file", the allowance of
//! request E1, the head kind of request E2 and the seams of request E4.

/// "A course is 16 bytes".
pub const COURSE_BYTES: usize = 16;
/// "A deadwood item is 12 bytes".
pub const DEADWOOD_BYTES: usize = 12;
/// Request E4: "one item of 12 bytes ... for each course".
pub const SEAM_BYTES: usize = 12;
/// Refusal 1: "file under 48 or over 65,536 bytes"; under the header's bytes,
/// which have grown.
pub const LARGEST_FILE: usize = 65_536;

/// A smallest and a largest allowed number, both allowed.
#[derive(Clone, Copy, Debug, PartialEq, Eq)]
pub struct Limits {
    pub low: u32,
    pub high: u32,
}

impl Limits {
    pub fn allow(self, number: u32) -> bool {
        self.low <= number && number <= self.high
    }

    /// The same of a number that may be below zero, which no limits allow.
    pub fn allow_signed(self, number: i64) -> bool {
        u32::try_from(number).is_ok_and(|number| self.allow(number))
    }
}

const fn limits(low: u32, high: u32) -> Limits {
    Limits { low, high }
}

/// The head kinds; 1 is the half-ellipsoid.
pub const FLAT: u32 = 0;
pub const SPHERICAL_CAP: u32 = 2;

pub const COURSE_COUNT: Limits = limits(1, 40);
pub const DEADWOOD_COUNT: Limits = limits(0, 64);

/// Request E2: "4 admits kind 2".
pub const HEAD_KIND: Limits = limits(FLAT, SPHERICAL_CAP);
pub const DH: Limits = limits(50_000, 500_000);
pub const L1: Limits = limits(100_000, 3_000_000);
pub const CIRCUMFERENCE: Limits = limits(150_000, 1_600_000);
pub const L2: Limits = limits(0, 20_000);
pub const L3_FLAT: Limits = limits(0, 0);
/// Of a half-ellipsoid; request E2: "L3 limits as kind 1".
pub const L3_CURVED: Limits = limits(1, 260_000);
pub const STEP: Limits = limits(100, 10_000);

pub const COURSE_LENGTH: Limits = limits(1, 3_000_000);
pub const THICKNESS: Limits = limits(100, 5_000);

/// Request E1: "Accept a difference of at most 100 u for each course."
pub const ALLOWANCE_FOR_A_COURSE: u32 = 100;

/// Request E4: "N up to 12, t up to 1,000, w up to 5,000".
pub const SEAM_NUMBER: Limits = limits(0, 12);
pub const SEAM_THICKNESS: Limits = limits(0, 1_000);
pub const SEAM_WIDTH: Limits = limits(0, 5_000);

/// "Volume is -10,000,000 to 10,000,000 v".
pub const DEADWOOD_VOLUME: i32 = 10_000_000;

/// "smallest 500.00 mm and largest 5,000.00 mm".
pub const DIAMETER: Limits = limits(50_000, 500_000);
/// Refusal 7: "over 10,000 from DH".
pub const DIAMETER_FROM_DH: i64 = 10_000;

/// The limits of L3, which depend on the head kind.
pub fn l3_limits(kind: u32) -> Limits {
    if kind == FLAT {
        L3_FLAT
    } else {
        L3_CURVED
    }
}
