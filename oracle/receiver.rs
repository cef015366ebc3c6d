//! Document 01, "The receiver record", and document 02, No. 2 and No. 12: the calls. Each takes the record by value and hands
//! the next one back.

use crate::frames::{ack_that_fits, Counts};
use crate::numbers::{judge_numbers, LARGEST};
use crate::record::{delay_obeys, own_delays_obey, Mark, Record, Totals};
use crate::refusals::*;
use std::collections::BTreeSet;

pub const NOT_DUE: u64 = 0;
pub const IMMEDIATE: u64 = 1;
pub const COUNT: u64 = 2;
pub const ORDER: u64 = 3;
pub const CONGESTION: u64 = 4;
pub const TIMER: u64 = 5;

/// "An R above 1,023 acts as 1,023."
const REORDERING_ACTS: u64 = 1023;

/// The result, 0 or a refusal's number, and the next record.
pub type Answer = (u64, Record);

/// "A refusal returns its number and the record as it came in".
fn answer(record: Record, judged: Result<(), u64>, step: impl FnOnce(&mut Record)) -> Answer {
    let mut next = record;
    match judged {
        Err(refusal) => (refusal, next),
        Ok(()) => {
            step(&mut next);
            (ACCEPTED, next)
        }
    }
}

/// "1 first. Number arguments next, giving 5."
fn judge(record: &Record, numbers: &[u64]) -> Result<(), u64> {
    if !record.consistent() {
        return Err(INCONSISTENT);
    }
    judge_numbers(numbers)
}

/// "Opening takes an ack-eliciting threshold T, a reordering threshold R, its own maximum delay in milliseconds and its own
/// minimum delay in microseconds." "a refused opening (5, then 4) hands back that record beside its number"
pub fn open(threshold: u64, reordering: u64, maximum_ms: u64, minimum_us: u64) -> Answer {
    if let Err(refusal) = judge_numbers(&[threshold, reordering, maximum_ms, minimum_us]) {
        return (refusal, opened(1, 1, 25, 1000));
    }
    if !own_delays_obey(maximum_ms, minimum_us) {
        return (DELAY, opened(1, 1, 25, 1000));
    }
    (ACCEPTED, opened(threshold, reordering, maximum_ms, minimum_us))
}

fn opened(threshold: u64, reordering: u64, maximum_ms: u64, minimum_us: u64) -> Record {
    Record {
        largest: None,
        arrived: 0,
        received: BTreeSet::new(),
        confirmed: 0,
        strays: false,
        acknowledged: None,
        highest: None,
        pending_largest: None,
        pending: 0,
        pending_first: 0,
        ce: 0,
        threshold,
        reordering,
        // "The delay in force starts as the maximum in microseconds."
        delay: maximum_ms * 1000,
        maximum_ms,
        minimum_us,
        sequence: None,
        cause: NOT_DUE,
        totals: Totals::default(),
    }
}

/// "Packet (number, time, ack-eliciting or not, CE or not)."; by document 02, No. 2, with one of four marks.
pub fn packet(record: Record, number: u64, time: u64, eliciting: bool, carried: Mark) -> Answer {
    let judged = judge(&record, &[number, time]).and_then(|()| judge_place(&record, number));
    answer(record, judged, |next| {
        let marked = carried == Mark::Ce;
        let earlier_highest = next.highest;
        // "Until the first threshold frame is accepted, every accepted ack-eliciting packet with CE sets cause 4; from then on
        // the start-of-run rule holds" (document 02, No. 1): "the previously accepted packet, of either kind, had not, or there was none"
        let nothing_agreed = next.sequence.is_none();
        let earlier_marked = next.largest.is_some() && next.ce != 0;
        let congested = marked && (nothing_agreed || !earlier_marked);
        mark(next, number, time);
        if eliciting {
            count(next, number, time);
            // "If no cause stands, the first that holds becomes the cause"
            if next.cause == NOT_DUE {
                next.cause = first_that_holds(next, number, earlier_highest, congested);
            }
        }
        next.ce = u64::from(marked);
        // "totals of accepted packets", of either kind; "A total stays at 2^62 - 1."
        let total = next.totals.of(carried);
        *total = (*total + 1).min(LARGEST);
    })
}

/// "the packet number lies in the window and was received", "the packet number lies below the window"
fn judge_place(record: &Record, number: u64) -> Result<(), u64> {
    if number < record.floor() {
        return Err(BELOW_WINDOW);
    }
    if record.received.contains(&number) {
        return Err(REPEATED);
    }
    Ok(())
}

/// "Accepted packets are marked and L moves if exceeded."
fn mark(record: &mut Record, number: u64, time: u64) {
    record.received.insert(number);
    if record.largest.map_or(true, |largest| number > largest) {
        record.largest = Some(number);
        record.arrived = time;
        forget_below_window(record);
    }
}

/// Marks leave with the window alone: those between its floor and the record's own stay, and mean nothing.
fn forget_below_window(record: &mut Record) {
    let floor = record.window_floor();
    while let Some(oldest) = record.received.iter().next().copied().filter(|oldest| *oldest < floor) {
        record.received.remove(&oldest);
    }
}

/// "An ack-eliciting one raises N, H and U as needed." "At 2^62, N stays."
fn count(record: &mut Record, number: u64, time: u64) {
    if record.pending == 0 {
        record.pending_first = time;
    }
    record.pending = (record.pending + 1).min(LARGEST + 1);
    record.highest = record.highest.max(Some(number));
    record.pending_largest = record.pending_largest.max(Some(number));
}

fn first_that_holds(record: &Record, number: u64, earlier_highest: Option<u64>, congested: bool) -> u64 {
    // "2, count: N > T."
    if record.pending > record.threshold {
        return COUNT;
    }
    if out_of_order(record, number, earlier_highest) {
        return ORDER;
    }
    // "4, congestion"
    if congested {
        return CONGESTION;
    }
    NOT_DUE
}

/// "3, order."
fn out_of_order(record: &Record, number: u64, earlier_highest: Option<u64>) -> bool {
    match record.reordering {
        // "R = 0: never."
        0 => false,
        1 => match earlier_highest {
            // "the number is below the earlier H, or it is above H and a number strictly between is missing"
            Some(highest) => number < highest || record.first_missing(highest + 1, number).is_some(),
            // "with no earlier H, all numbers from 0 up to it count as between"
            None => record.first_missing(0, number).is_some(),
        },
        reordering => gap_is_due(record, reordering.min(REORDERING_ACTS)),
    }
}

/// "R from 2 up: the smallest unreported missing number m has U - m >= R."
fn gap_is_due(record: &Record, reordering: u64) -> bool {
    let pending_largest = match record.pending_largest {
        Some(number) => number,
        None => return false,
    };
    // "above A - R (all of them if A is absent)", over whole numbers
    let first_unreported = match record.acknowledged {
        Some(acknowledged) => (i128::from(acknowledged) - i128::from(reordering) + 1).max(0) as u64,
        None => 0,
    };
    // "Unreported missing numbers are those not received, below U"
    match record.first_missing(first_unreported, pending_largest) {
        Some(missing) => pending_largest - missing >= reordering,
        None => false,
    }
}

/// "IMMEDIATE_ACK sets cause 1 if none stands; before the first packet it is refused with 8."
pub fn immediate(record: Record) -> Answer {
    let judged = judge(&record, &[]).and_then(|()| judge_received(&record));
    answer(record, judged, |next| {
        if next.cause == NOT_DUE {
            next.cause = IMMEDIATE;
        }
    })
}

fn judge_received(record: &Record) -> Result<(), u64> {
    record.largest.map(|_| ()).ok_or(NOTHING_YET)
}

/// "Timer (time) sets cause 5 if none stands, N > 0 and the time since the first unacknowledged arrival is at least the
/// delay in force. A clock that went back counts as no time passed."
pub fn timer(record: Record, time: u64) -> Answer {
    let judged = judge(&record, &[time]);
    answer(record, judged, |next| {
        let passed = time.saturating_sub(next.pending_first);
        if next.cause == NOT_DUE && next.pending > 0 && passed >= next.delay {
            next.cause = TIMER;
        }
    })
}

/// "Threshold frame: stale if its sequence is not above the largest processed (the first never is)". "ACK_FREQUENCY is read
/// whole before 4 is judged, and 4 before staleness."
pub fn threshold(record: Record, sequence: u64, threshold: u64, delay_us: u64, reordering: u64) -> Answer {
    let judged = judge(&record, &[sequence, threshold, delay_us, reordering]).and_then(|()| {
        if !delay_obeys(delay_us, record.minimum_us) {
            return Err(DELAY);
        }
        if record.sequence.map_or(false, |largest| sequence <= largest) {
            return Err(STALE);
        }
        Ok(())
    });
    // "Otherwise T, R, delay and sequence change, and no cause is set by that alone."
    answer(record, judged, |next| {
        next.threshold = threshold;
        next.reordering = reordering;
        next.delay = delay_us;
        next.sequence = Some(sequence);
    })
}

/// "Write (time, room) emits an ACK with largest L, delay one eighth (rounded down) of the microseconds since L arrived, and
/// as many newest ranges of the window as fit", from the floor up. "The caller chooses 02 or 03 at the write" (document 02,
/// No. 2). Gives the frame's length too; "Bytes after the frame stay."
pub fn write(record: Record, time: u64, with_counts: bool, buffer: &mut [u8]) -> (u64, usize, Record) {
    let frame = judge(&record, &[time]).and_then(|()| judge_received(&record)).and_then(|()| {
        let delay = time.saturating_sub(record.arrived) / 8;
        let Totals { ect0, ect1, ce, .. } = record.totals;
        let counts = Some(Counts { ect0, ect1, ce }).filter(|_| with_counts);
        ack_that_fits(delay, &record.ranges(), counts, buffer.len())
    });
    let length = frame.as_ref().map_or(0, Vec::len);
    if let Ok(bytes) = &frame {
        buffer[..length].copy_from_slice(bytes);
    }
    // "After it A = L, U is absent, N and cause are 0."
    let (result, next) = answer(record, frame.map(|_| ()), |next| {
        next.acknowledged = next.largest;
        next.pending_largest = None;
        next.pending = 0;
        next.cause = NOT_DUE;
    });
    (result, length, next)
}

/// "When a packet that carried our ACK with largest k is itself confirmed" (document 02, No. 12). "Refusals: 1, 5, 8 for this
/// call too, then 19 if k is above A or A is absent."
pub fn confirm(record: Record, k: u64) -> Answer {
    let judged = judge(&record, &[k]).and_then(|()| judge_received(&record)).and_then(|()| match record.acknowledged {
        Some(acknowledged) if k <= acknowledged => Ok(()),
        _ => Err(NOT_ACKNOWLEDGED),
    });
    answer(record, judged, |next| {
        // "a floor that rises to k + 1, or to L where k is L"
        let risen = if next.largest == Some(k) { k } else { k + 1 };
        // "The floor never falls."
        next.confirmed = next.confirmed.max(risen);
    })
}
