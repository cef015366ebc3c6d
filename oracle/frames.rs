//! Document 01, "Three frames": ACK_FREQUENCY and IMMEDIATE_ACK of 004, ACK of RFC 9000 section 19.3. Document 02, No. 2:
//! ACK of type 03 too.

use crate::numbers::{append, judge_numbers, put_bytes, width, Fields};
use crate::refusals::{BELOW_ZERO, NO_ROOM, OTHER_TYPE};

const ACK: u64 = 0x02;
const ACK_WITH_COUNTS: u64 = 0x03;
const IMMEDIATE_ACK: u64 = 0x1f;
const ACK_FREQUENCY: u64 = 0xaf;

#[derive(Clone, Copy, Debug, PartialEq, Eq)]
pub struct Frequency {
    pub sequence: u64,
    pub threshold: u64,
    /// In microseconds, as it came: "The codec does not judge delays; the receiver does."
    pub delay: u64,
    pub reordering: u64,
    pub used: usize,
}

/// "ACK type 03 of RFC 9000 section 19.3.2: the same fields, then three ECN counts", there in this order.
#[derive(Clone, Copy, Debug, Default, PartialEq, Eq)]
pub struct Counts {
    pub ect0: u64,
    pub ect1: u64,
    pub ce: u64,
}

#[derive(Debug, PartialEq, Eq)]
pub struct Ack {
    pub largest: u64,
    /// As on the wire: one eighth of the microseconds.
    pub delay: u64,
    /// Smallest and largest of each range, newest range first.
    pub ranges: Vec<(u64, u64)>,
    /// Of type 03 alone: "the ACK reader takes 03 too and gives its counts".
    pub counts: Option<Counts>,
    pub used: usize,
}

/// "the frame type is another one, or not in shortest form": "a completed wrong type gives 3 before later fields are read".
/// Gives which of the wanted types it is, too.
fn read_type<'a>(bytes: &'a [u8], wanted: &[u64]) -> Result<(Fields<'a>, u64), u64> {
    let mut fields = Fields { bytes, at: 0 };
    let found = fields.shortest(OTHER_TYPE)?;
    if !wanted.contains(&found) {
        return Err(OTHER_TYPE);
    }
    Ok((fields, found))
}

/// The bytes behind a type that was read already; another type is 3 before any field.
fn behind_type<'a>(kind: u64, bytes: &'a [u8], wanted: &[u64]) -> Result<Fields<'a>, u64> {
    if wanted.contains(&kind) {
        Ok(Fields { bytes, at: 0 })
    } else {
        Err(OTHER_TYPE)
    }
}

/// "type 0xaf, written 40 af; then sequence, ack-eliciting threshold, requested maximum delay in microseconds, reordering threshold"
pub fn read_frequency(bytes: &[u8]) -> Result<Frequency, u64> {
    let (fields, _) = read_type(bytes, &[ACK_FREQUENCY])?;
    thresholds(fields)
}

/// Open point 19: "a form that takes the type as a number beside the rest"
pub fn read_frequency_as(kind: u64, bytes: &[u8]) -> Result<Frequency, u64> {
    thresholds(behind_type(kind, bytes, &[ACK_FREQUENCY])?)
}

fn thresholds(mut fields: Fields) -> Result<Frequency, u64> {
    let sequence = fields.number()?;
    let threshold = fields.number()?;
    let delay = fields.number()?;
    let reordering = fields.number()?;
    Ok(Frequency { sequence, threshold, delay, reordering, used: fields.at })
}

/// "IMMEDIATE_ACK (004): type 1f alone." Gives the length used.
pub fn read_immediate(bytes: &[u8]) -> Result<usize, u64> {
    Ok(read_type(bytes, &[IMMEDIATE_ACK])?.0.at)
}

/// "type 02, largest, delay, range count, first range, then gap and length pairs"; of 03 "then three ECN counts"
pub fn read_ack(bytes: &[u8]) -> Result<Ack, u64> {
    let (fields, found) = read_type(bytes, &[ACK, ACK_WITH_COUNTS])?;
    ranges_and_counts(fields, found)
}

/// Open point 19, of ACK.
pub fn read_ack_as(kind: u64, bytes: &[u8]) -> Result<Ack, u64> {
    ranges_and_counts(behind_type(kind, bytes, &[ACK, ACK_WITH_COUNTS])?, kind)
}

fn ranges_and_counts(mut fields: Fields, found: u64) -> Result<Ack, u64> {
    let largest = fields.number()?;
    let delay = fields.number()?;
    let count = fields.number()?;
    let mut smallest = below(largest, fields.number()?)?;
    let mut ranges = vec![(smallest, largest)];
    for _ in 0..count {
        // "The next range's largest is the previous range's smallest minus gap minus 2."
        let next = below(smallest, fields.number()? + 2)?;
        smallest = below(next, fields.number()?)?;
        ranges.push((smallest, next));
    }
    let counts = if found == ACK_WITH_COUNTS {
        Some(Counts { ect0: fields.number()?, ect1: fields.number()?, ce: fields.number()? })
    } else {
        None
    };
    Ok(Ack { largest, delay, ranges, counts, used: fields.at })
}

/// "an ACK range goes below number 0"
fn below(number: u64, distance: u64) -> Result<u64, u64> {
    number.checked_sub(distance).ok_or(BELOW_ZERO)
}

/// "It then writes smallest and largest of each range to a lent slice of 64-bit numbers, newest range first, and touches no
/// later element." "The reader checks the whole frame, 2 and 14 included, before it judges room."
pub fn read_ack_into(bytes: &[u8], lent: &mut [u64]) -> Result<Ack, u64> {
    ranges_into(read_ack(bytes), lent)
}

pub fn ranges_into(found: Result<Ack, u64>, lent: &mut [u64]) -> Result<Ack, u64> {
    let ack = found?;
    let pairs: Vec<u64> = ack.ranges.iter().flat_map(|(smallest, largest)| [*smallest, *largest]).collect();
    lent.get_mut(..pairs.len()).ok_or(NO_ROOM)?.copy_from_slice(&pairs);
    Ok(ack)
}

/// "ACK_FREQUENCY and IMMEDIATE_ACK each have a writer (5, then 9)."
pub fn put_frequency(buffer: &mut [u8], values: [u64; 4]) -> Result<usize, u64> {
    judge_numbers(&values)?;
    let mut bytes = Vec::new();
    append(&mut bytes, ACK_FREQUENCY);
    for value in values {
        append(&mut bytes, value);
    }
    put_bytes(buffer, 0, &bytes)
}

pub fn put_immediate(buffer: &mut [u8]) -> Result<usize, u64> {
    put_bytes(buffer, 0, &[IMMEDIATE_ACK as u8])
}

/// The ACK frame of given ranges, newest first, as many as fit the room; "the first range is always there". With counts it is
/// of type 03, and they take of the room.
pub fn ack_that_fits(delay: u64, ranges: &[(u64, u64)], counts: Option<Counts>, room: usize) -> Result<Vec<u8>, u64> {
    let (smallest, largest) = ranges[0];
    let tail = counts.map_or(0, |Counts { ect0, ect1, ce }| width(ect0) + width(ect1) + width(ce));
    let fixed = 1 + width(largest) + width(delay) + width(largest - smallest) + tail;
    let mut pairs = 0;
    let mut kept = None;
    for after_first in 0..ranges.len() {
        if after_first > 0 {
            let (gap, length) = gap_and_length(ranges, after_first);
            pairs += width(gap) + width(length);
        }
        if fixed + width(after_first as u64) + pairs > room {
            break;
        }
        kept = Some(after_first);
    }
    Ok(ack(delay, &ranges[..=kept.ok_or(NO_ROOM)?], counts))
}

fn ack(delay: u64, ranges: &[(u64, u64)], counts: Option<Counts>) -> Vec<u8> {
    let (smallest, largest) = ranges[0];
    let kind = if counts.is_some() { ACK_WITH_COUNTS } else { ACK };
    let mut bytes = Vec::new();
    for value in [kind, largest, delay, ranges.len() as u64 - 1, largest - smallest] {
        append(&mut bytes, value);
    }
    for index in 1..ranges.len() {
        let (gap, length) = gap_and_length(ranges, index);
        append(&mut bytes, gap);
        append(&mut bytes, length);
    }
    if let Some(Counts { ect0, ect1, ce }) = counts {
        for count in [ect0, ect1, ce] {
            append(&mut bytes, count);
        }
    }
    bytes
}

/// RFC 9000 section 19.3.1: next largest = previous smallest - gap - 2.
fn gap_and_length(ranges: &[(u64, u64)], index: usize) -> (u64, u64) {
    let (smallest, largest) = ranges[index];
    (ranges[index - 1].0 - largest - 2, largest - smallest)
}
