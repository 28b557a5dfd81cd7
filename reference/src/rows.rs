//! "Rows stand at 0, step, 2·step and so on up to DH, with one more row at DH
//! if DH is no multiple of the step."

use crate::heights::DipHeight;

/// The largest row count that limits allow: DH 500,000 and step 100.
pub const MOST_ROWS: usize = 5_001;

/// The heights at which rows stand. The step is not 0.
pub fn row_heights(dh: u32, step: u32) -> Vec<DipHeight> {
    let mut heights = Vec::new();
    let mut height: u64 = 0;
    while height <= u64::from(dh) {
        heights.push(DipHeight(height as u32));
        height += u64::from(step);
    }
    if !dh.is_multiple_of(step) {
        heights.push(DipHeight(dh));
    }
    heights
}

/// How many rows there are. The step is not 0.
pub fn row_count(dh: u32, step: u32) -> usize {
    let whole_steps = (dh / step) as usize;
    if dh.is_multiple_of(step) {
        whole_steps + 1
    } else {
        whole_steps + 2
    }
}
