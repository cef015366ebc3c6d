//! A time in a hearing as it is typed: `250ms`, `1.5s`, `12min`, `1h`, `2:30` or `1:02:03.5`.

/// Microseconds since the first record.
pub fn parse(text: &str) -> Option<u64> {
    if text.contains(':') {
        return clock(text);
    }
    let units = [("us", 1), ("ms", 1_000), ("min", 60_000_000), ("m", 60_000_000), ("h", 3_600_000_000), ("s", 1_000_000)];
    let (number, length) = units.iter().find_map(|(sign, length)| Some((text.strip_suffix(sign)?, *length)))?;
    decimal(number.trim_end(), length)
}

/// Minutes and seconds, or hours before them.
fn clock(text: &str) -> Option<u64> {
    let parts: Vec<&str> = text.split(':').collect();
    let (seconds, before) = parts.split_last()?;
    let mut whole: u64 = 0;
    for part in before.iter().filter(|_| before.len() <= 2) {
        whole = whole.checked_mul(60)?.checked_add(number(part)?)?;
    }
    let all = decimal(seconds, 1_000_000).filter(|_| before.len() <= 2)?;
    whole.checked_mul(60_000_000)?.checked_add(all)
}

/// Digits alone.
fn number(digits: &str) -> Option<u64> {
    digits.bytes().all(|digit| digit.is_ascii_digit()).then(|| digits.parse().ok())?
}

/// A number with or without a point, times a length; what is smaller than a microsecond is cut off.
fn decimal(text: &str, length: u64) -> Option<u64> {
    let (whole, part) = text.split_once('.').unwrap_or((text, "0"));
    let scale = 10u64.checked_pow(u32::try_from(part.len()).ok()?)?;
    let behind = u128::from(number(part)?) * u128::from(length) / u128::from(scale);
    number(whole)?.checked_mul(length)?.checked_add(u64::try_from(behind).ok()?)
}
