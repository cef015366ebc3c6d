//! Times as dates, where they can be: microseconds since 1970 in this century. No paper says from when a clock counts.

const SECOND: u64 = 1_000_000;
const DAY: u64 = 86_400;
/// 2000-01-01 and 2100-01-01, in seconds since 1970.
const CENTURY: std::ops::Range<u64> = 946_684_800..4_102_444_800;

/// The date and the time of day, if the clock counts from 1970.
pub fn date(micros: u64) -> Option<String> {
    let seconds = Some(micros / SECOND).filter(|seconds| CENTURY.contains(seconds))?;
    let (year, month, day) = civil(seconds / DAY);
    let (hour, minute, second) = (seconds % DAY / 3600, seconds % 3600 / 60, seconds % 60);
    Some(format!("{year}-{month:02}-{day:02} {hour:02}:{minute:02}:{second:02} UTC"))
}

/// From when to when, or nothing where that is unknown.
pub fn between(first: u64, last: u64) -> String {
    match date(first).zip(date(last)) {
        Some((first, last)) => format!("{first} to {last}, if the clock counts from 1970"),
        None => String::new(),
    }
}

/// Year, month and day of a day since 1970, by years that begin in March and eras of 400 years.
fn civil(days: u64) -> (u64, u64, u64) {
    let shifted = days + 719_468;
    let (era, of_era) = (shifted / 146_097, shifted % 146_097);
    let year_of_era = (of_era - of_era / 1_460 + of_era / 36_524 - of_era / 146_096) / 365;
    let of_year = of_era - (365 * year_of_era + year_of_era / 4 - year_of_era / 100);
    let march = (5 * of_year + 2) / 153;
    let (day, month) = (of_year - (153 * march + 2) / 5 + 1, if march < 10 { march + 3 } else { march - 9 });
    (400 * era + year_of_era + u64::from(month <= 2), month, day)
}
