//! The whole root by way of a 64-bit float.

/// The largest number whose square does not exceed n, for n below 2^53. Signed
/// numbers, because the processor turns these into floats and back in one step.
pub fn float_root(n: u64) -> u64 {
    let root = (n as i64 as f64).sqrt() as i64 as u64;
    if n < root * root {
        root - 1
    } else if (root + 1) * (root + 1) <= n {
        root + 1
    } else {
        root
    }
}
