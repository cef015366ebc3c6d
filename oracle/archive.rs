//! The calls of the archive, by the same declarations that hosts in Rust use, and its record and header against those of
//! this program.

#[path = "../bindings/rust/src/raw.rs"]
mod raw;

pub use raw::*;

use crate::record::{Mark, Record, Totals, WINDOW};
use crate::report;
use std::collections::BTreeSet;

/// For hosts a mark is the ECN field of the IP header (RFC 3168, section 5); the two low bits of the number count.
pub fn mark_of_ecn(ecn: u64) -> Mark {
    match ecn % 4 {
        0 => Mark::Unmarked,
        1 => Mark::Ect1,
        2 => Mark::Ect0,
        _ => Mark::Ce,
    }
}

/// The word and the bit in it of a place of the window.
pub fn place(bit: u64) -> (usize, u64) {
    ((bit / 64) as usize, 1 << (bit % 64))
}

/// The record of the papers that an archive's record stands for; also a made-up one.
pub fn record_of(raw: &Receiver) -> Record {
    let number_of = |end: u64| end.checked_sub(1);
    let (received, strays) = marks_of(raw);
    Record {
        largest: number_of(raw.end),
        arrived: raw.arrived,
        received,
        confirmed: raw.confirmed,
        strays,
        acknowledged: number_of(raw.acknowledged),
        highest: number_of(raw.highest),
        pending_largest: number_of(raw.pending_end),
        pending: raw.pending_count,
        pending_first: raw.pending_first,
        ce: raw.ce,
        threshold: raw.threshold,
        reordering: raw.reordering,
        delay: raw.delay,
        maximum_ms: raw.maximum,
        minimum_us: raw.minimum,
        sequence: number_of(raw.sequence),
        cause: raw.cause,
        totals: Totals { ect0: raw.total_ect0, ect1: raw.total_ect1, ce: raw.total_ce, unmarked: raw.total_unmarked },
    }
}

/// The numbers that the window marks, and whether it marks a place below number 0.
fn marks_of(raw: &Receiver) -> (BTreeSet<u64>, bool) {
    let mut received = BTreeSet::new();
    let mut strays = false;
    for bit in 0..WINDOW {
        let (word, mask) = place(bit);
        let number = i128::from(raw.end) - i128::from(WINDOW) + i128::from(bit);
        if raw.window[word] & mask == 0 {
            continue;
        }
        if number < 0 {
            strays = true;
        } else {
            received.insert(number as u64);
        }
    }
    (received, strays)
}

/// The archive's record that stands for a consistent record of the papers.
pub fn raw_of(record: &Record) -> Receiver {
    let end_of = |number: Option<u64>| number.map_or(0, |number| number + 1);
    let mut window = [0; 16];
    for number in &record.received {
        let (word, mask) = place(number + WINDOW - end_of(record.largest));
        window[word] |= mask;
    }
    Receiver {
        window,
        end: end_of(record.largest),
        arrived: record.arrived,
        confirmed: record.confirmed,
        pending_count: record.pending,
        pending_end: end_of(record.pending_largest),
        pending_first: record.pending_first,
        threshold: record.threshold,
        reordering: record.reordering,
        delay: record.delay,
        sequence: end_of(record.sequence),
        maximum: record.maximum_ms,
        minimum: record.minimum_us,
        acknowledged: end_of(record.acknowledged),
        highest: end_of(record.highest),
        ce: record.ce,
        cause: record.cause,
        total_ect0: record.totals.ect0,
        total_ect1: record.totals.ect1,
        total_ce: record.totals.ce,
        total_unmarked: record.totals.unmarked,
    }
}

/// The archive's header that stands for a header of the papers.
pub fn raw_header(header: &report::Header) -> Header {
    Header {
        timestamp: header.timestamp,
        interval: header.interval,
        total: header.total,
        received: header.received,
        late: header.late,
        lost: header.lost,
        average: header.average,
        metrics: header.metrics,
        kinds: header.kinds,
        values: header.values,
        entries: header.entries,
    }
}
