//! The decimals that the programs write and read.

/// A number of u as millimetres, or of v as litres: two decimals.
pub fn two_decimals(hundredths: u32) -> String {
    format!("{}.{:02}", hundredths / 100, hundredths % 100)
}

/// A difference of volumes: as above, with `+` or `-` before it unless it
/// is 0.
pub fn signed_decimals(hundredths: i64) -> String {
    let sign = match hundredths.signum() {
        1 => "+",
        -1 => "-",
        _ => "",
    };
    let size = hundredths.unsigned_abs();
    format!("{sign}{}.{:02}", size / 100, size % 100)
}

/// As in sentences: two decimals, a comma at each thousand, and `-` before a
/// number below zero.
pub fn with_commas(hundredths: i64) -> String {
    let sign = if hundredths < 0 { "-" } else { "" };
    let size = hundredths.unsigned_abs();
    let whole = (size / 100).to_string();
    let mut grouped = String::new();
    for (index, digit) in whole.chars().enumerate() {
        if index > 0 && (whole.len() - index).is_multiple_of(3) {
            grouped.push(',');
        }
        grouped.push(digit);
    }
    format!("{sign}{grouped}.{:02}", size % 100)
}

/// The reverse of `two_decimals`: "12", "12.3" or "12.34" as 1200, 1230 or
/// 1234 hundredths. Nothing for any other text or a number of more than 32
/// bits.
pub fn hundredths(text: &str) -> Option<u32> {
    let (whole, decimals) = text.split_once('.').unwrap_or((text, "00"));
    let digits = |part: &str| !part.is_empty() && part.bytes().all(|b| b.is_ascii_digit());
    if !digits(whole) || !digits(decimals) || decimals.len() > 2 {
        return None;
    }
    let whole: u32 = whole.parse().ok()?;
    let mut part: u32 = decimals.parse().ok()?;
    if decimals.len() == 1 {
        part *= 10;
    }
    whole.checked_mul(100)?.checked_add(part)
}
