//! Document 01, "The feedback report", with document 02, No. 5, 8 and 10: a header of wire numbers in shortest form, then up
//! to 200 entries, records of the profile's size.

use crate::numbers::{append, judge_numbers, put_bytes, width, Fields};
use crate::profile::{judge_records, read_record, Entry, Profile};
use crate::refusals::{BYTES_BEHIND, COUNT_OR_TYPE, ENDS, ENTRY, NO_ROOM, SUM, TOO_LARGE};
use std::ops::Range;

/// Document 02, No. 8: "The limit becomes 200 for both readers and the writer."
pub const MOST_ENTRIES: u64 = 200;
/// "old receivers, which refuse more than 50 with 10"
pub const MOST_OF_OLD: u64 = 50;
/// "The writer takes a header and 0 to 256 entry records."
const MOST_RECORDS: usize = 256;
/// As many metrics as a profile may have.
pub const METRICS: usize = 8;
/// "The average is signed", "for n from -2^61 to 2^61 - 1".
pub const SMALLEST_AVERAGE: i64 = -(1 << 61);
pub const LARGEST_AVERAGE: i64 = (1 << 61) - 1;

/// "Timestamp; then the summary of 003: interval, total, received, late, lost, average; then metric count and type-value
/// pairs; then entry count". The default is the empty header of a refused read.
#[derive(Clone, Copy, Debug, Default, PartialEq, Eq)]
pub struct Header {
    pub timestamp: u64,
    pub interval: u64,
    pub total: u64,
    pub received: u64,
    pub late: u64,
    pub lost: u64,
    pub average: i64,
    /// How many metrics there are; kinds and values beyond are not looked at.
    pub metrics: u64,
    pub kinds: [u64; METRICS],
    pub values: [u64; METRICS],
    /// How many entries follow; the writer takes no heed of it.
    pub entries: u64,
}

/// "n >= 0 is stored as 2n, negative n as -2n - 1"
fn stored(average: i64) -> u64 {
    let n = i128::from(average);
    (if n >= 0 { 2 * n } else { -2 * n - 1 }) as u64
}

/// The number that is stored so.
pub fn restored(stored: u64) -> i64 {
    let half = (stored / 2) as i64;
    if stored % 2 == 0 {
        half
    } else {
        -half - 1
    }
}

/// Reads a whole report: the header, and the place where the entries start.
pub fn read_report(profile: u64, bytes: &[u8]) -> Result<(Header, usize), u64> {
    read_report_up_to(MOST_ENTRIES, profile, bytes)
}

/// The same by a reader that accepts so many entries; an old receiver is the one with 50.
pub fn read_report_up_to(most: u64, profile: u64, bytes: &[u8]) -> Result<(Header, usize), u64> {
    let profile = Profile::of(profile)?;
    let (header, records) = read_header(most, profile, bytes)?;
    let (start, end) = (records.start, records.end);
    judge_records(profile, &bytes[records])?;
    if end < bytes.len() {
        return Err(BYTES_BEHIND);
    }
    Ok((header, start))
}

/// The header alone, and where the records stand, which are not looked at.
pub fn read_header(most: u64, profile: Profile, bytes: &[u8]) -> Result<(Header, Range<usize>), u64> {
    let mut fields = Fields { bytes, at: 0 };
    let mut header = read_summary(&mut fields)?;
    read_metrics(profile, &mut fields, &mut header)?;
    header.entries = fields.report_number()?;
    judge_entry_count(most, header.entries)?;
    // "If too few bytes remain for the entries, 2 comes before any 12; 13 is last."
    let end = fields.at + profile.record() * header.entries as usize;
    if end > bytes.len() {
        return Err(ENDS);
    }
    Ok((header, fields.at..end))
}

fn read_summary(fields: &mut Fields) -> Result<Header, u64> {
    let mut header = Header {
        timestamp: fields.report_number()?,
        interval: fields.report_number()?,
        total: fields.report_number()?,
        received: fields.report_number()?,
        late: fields.report_number()?,
        lost: fields.report_number()?,
        ..Header::default()
    };
    // "The sum (11) is checked after lost"
    judge_sum(&header)?;
    header.average = restored(fields.report_number()?);
    Ok(header)
}

/// "10 after each count or type"
fn read_metrics(profile: Profile, fields: &mut Fields, header: &mut Header) -> Result<(), u64> {
    header.metrics = fields.report_number()?;
    judge_metric_count(profile, header.metrics)?;
    for index in 0..header.metrics as usize {
        header.kinds[index] = fields.report_number()?;
        judge_type(profile, &header.kinds, index)?;
        header.values[index] = fields.report_number()?;
    }
    Ok(())
}

/// "total differs from received + late + lost"
pub fn judge_sum(header: &Header) -> Result<(), u64> {
    let parts = [header.received, header.late, header.lost];
    if u128::from(header.total) != parts.iter().map(|part| u128::from(*part)).sum() {
        return Err(SUM);
    }
    Ok(())
}

/// "10 for odd types or more than 8"; in profile 1 for more than 4.
pub fn judge_metric_count(profile: Profile, count: u64) -> Result<(), u64> {
    if count > profile.most_metrics() as u64 {
        return Err(COUNT_OR_TYPE);
    }
    Ok(())
}

pub fn judge_type(profile: Profile, kinds: &[u64], index: usize) -> Result<(), u64> {
    let rises = index == 0 || kinds[index - 1] < kinds[index];
    if !rises || !profile.allows(kinds[index]) {
        return Err(COUNT_OR_TYPE);
    }
    Ok(())
}

/// "in a reader 10 above 200 entries"
pub fn judge_entry_count(most: u64, count: u64) -> Result<(), u64> {
    if count > most {
        return Err(COUNT_OR_TYPE);
    }
    Ok(())
}

/// "The entries come back as a part of the caller's own bytes": where it starts, and its length. "A refused read hands back
/// an empty part", at the end.
pub fn find_entries(profile: u64, bytes: &[u8]) -> (usize, usize) {
    let start = read_report(profile, bytes).map_or(bytes.len(), |(_, start)| start);
    (start, bytes.len() - start)
}

/// One entry of that part, judged by itself.
pub fn read_entry(profile: u64, entries: &[u8], index: usize) -> Result<Entry, u64> {
    let profile = Profile::of(profile)?;
    let start = index.checked_mul(profile.record()).ok_or(ENDS)?;
    let end = start.checked_add(profile.record()).ok_or(ENDS)?;
    read_record(profile, entries.get(start..end).ok_or(ENDS)?)
}

/// "The writer takes a header and 0 to 256 entry records." Gives the report's length, and how many records were kept.
pub fn write_report(
    profile: u64,
    buffer: &mut [u8],
    header: &Header,
    records: &[u8],
    maximum: u64,
) -> Result<(usize, usize), u64> {
    let profile = Profile::of(profile)?;
    judge_header(profile, header)?;
    // "in the writer 10 for a maximum above 200, right after the metric types"
    if maximum > MOST_ENTRIES {
        return Err(COUNT_OR_TYPE);
    }
    judge_given_records(profile, records)?;
    let mut bytes = header_bytes(header);
    // "Then it keeps the longest run of last records, at most" so many, "that fits. Totals stay as given." The count is a wire
    // number, which takes room of its own; "the smallest permitted output" has no entry.
    let most = (records.len() / profile.record()).min(maximum as usize);
    let fits = |kept: &usize| bytes.len() + width(*kept as u64) + kept * profile.record() <= buffer.len();
    let kept = (0..=most).rev().find(fits).ok_or(NO_ROOM)?;
    append(&mut bytes, kept as u64);
    bytes.extend_from_slice(&records[records.len() - kept * profile.record()..]);
    Ok((put_bytes(buffer, 0, &bytes)?, kept))
}

/// "numbers (5; metrics beyond the count or the limit are not looked at), the sum (11), metric count and types (10)"
fn judge_header(profile: Profile, header: &Header) -> Result<(), u64> {
    let looked_at = header.metrics.min(profile.most_metrics() as u64) as usize;
    judge_numbers(&[header.timestamp, header.interval, header.total, header.received, header.late, header.lost, header.metrics])?;
    judge_numbers(&header.kinds[..looked_at])?;
    judge_numbers(&header.values[..looked_at])?;
    if header.average < SMALLEST_AVERAGE || header.average > LARGEST_AVERAGE {
        return Err(TOO_LARGE);
    }
    judge_sum(header)?;
    judge_metric_count(profile, header.metrics)?;
    (0..looked_at).try_for_each(|index| judge_type(profile, &header.kinds, index))
}

/// "an entry length that is no multiple of 16 (12), more than 256 records (10), each record (12)"; of 24 in profile 2.
fn judge_given_records(profile: Profile, records: &[u8]) -> Result<(), u64> {
    if records.len() % profile.record() != 0 {
        return Err(ENTRY);
    }
    if records.len() / profile.record() > MOST_RECORDS {
        return Err(COUNT_OR_TYPE);
    }
    judge_records(profile, records)
}

/// The header up to the entry count.
fn header_bytes(header: &Header) -> Vec<u8> {
    let mut bytes = Vec::new();
    let summary = [header.timestamp, header.interval, header.total, header.received, header.late, header.lost];
    for number in summary.iter().chain(&[stored(header.average), header.metrics]) {
        append(&mut bytes, *number);
    }
    for index in 0..header.metrics as usize {
        append(&mut bytes, header.kinds[index]);
        append(&mut bytes, header.values[index]);
    }
    bytes
}
