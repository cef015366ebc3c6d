//! Document 01, "The receiver record": what the record knows, and when it is consistent. The floor that the sender's
//! confirmations raise is document 02, No. 12; the totals of marks are No. 2.

use crate::numbers::LARGEST;
use std::collections::BTreeSet;

/// "which of the last 1,024 numbers"
pub const WINDOW: u64 = 1024;
/// "the maximum is below 16,384 ms"
const TOO_LONG_MS: u64 = 16_384;
/// "A requested delay must be below 16,384,000 microseconds"
const TOO_LONG_US: u64 = 16_384_000;

/// "Packets carry one of four marks, none being the fourth." (document 02, No. 2)
#[derive(Clone, Copy, Debug, PartialEq, Eq)]
pub enum Mark {
    Ect0,
    Ect1,
    Ce,
    Unmarked,
}

/// "totals of accepted packets marked ECT(0), ECT(1) and CE, and of unmarked ones" (document 02, No. 2)
#[derive(Clone, Copy, Debug, Default, PartialEq, Eq)]
pub struct Totals {
    pub ect0: u64,
    pub ect1: u64,
    pub ce: u64,
    pub unmarked: u64,
}

impl Totals {
    pub fn of(&mut self, mark: Mark) -> &mut u64 {
        match mark {
            Mark::Ect0 => &mut self.ect0,
            Mark::Ect1 => &mut self.ect1,
            Mark::Ce => &mut self.ce,
            Mark::Unmarked => &mut self.unmarked,
        }
    }

    pub fn all(&self) -> [u64; 4] {
        [self.ect0, self.ect1, self.ce, self.unmarked]
    }
}

#[derive(Clone, Debug, PartialEq, Eq)]
pub struct Record {
    /// "the largest received number L"; absent: nothing was received.
    pub largest: Option<u64>,
    /// "with its arrival time", in microseconds.
    pub arrived: u64,
    /// Which numbers "from the floor, the larger of 0 and L - 1,023, up to L" were received.
    pub received: BTreeSet<u64>,
    /// "The record gets a floor" (document 02, No. 12). What is marked below it means nothing.
    pub confirmed: u64,
    /// A made-up record can mark places of the window below number 0, or places while nothing was received. No call does.
    pub strays: bool,
    /// "the largest acknowledged A"
    pub acknowledged: Option<u64>,
    /// "the highest ack-eliciting number H"
    pub highest: Option<u64>,
    /// "the largest ack-eliciting number accepted since the last written ACK U"
    pub pending_largest: Option<u64>,
    /// "the count N of ack-eliciting packets since the last written ACK"
    pub pending: u64,
    /// "the arrival time of the first of them", in microseconds.
    pub pending_first: u64,
    /// "the last accepted packet's CE mark"
    pub ce: u64,
    /// "an ack-eliciting threshold T", in force.
    pub threshold: u64,
    /// "a reordering threshold R", in force. 0: never; 1: RFC 9000's rule; from 2 up: 004's.
    pub reordering: u64,
    /// "The delay in force", in microseconds.
    pub delay: u64,
    /// "its own maximum delay in milliseconds"
    pub maximum_ms: u64,
    /// "its own minimum delay in microseconds"
    pub minimum_us: u64,
    /// "the largest sequence processed"
    pub sequence: Option<u64>,
    /// "the due cause": 0 none, 1 IMMEDIATE_ACK, 2 count, 3 order, 4 congestion, 5 timer.
    pub cause: u64,
    /// "The receiver record gains totals" (document 02, No. 2).
    pub totals: Totals,
}

/// "Delay rule: the maximum is below 16,384 ms, and the minimum is not above it."
pub fn own_delays_obey(maximum_ms: u64, minimum_us: u64) -> bool {
    maximum_ms < TOO_LONG_MS && minimum_us <= maximum_ms * 1000
}

/// "A requested delay must be below 16,384,000 microseconds and not below the minimum, or the answer is 4."
pub fn delay_obeys(delay_us: u64, minimum_us: u64) -> bool {
    delay_us < TOO_LONG_US && delay_us >= minimum_us
}

impl Record {
    /// "the window's own floor": "the larger of 0 and L - 1,023"
    pub fn window_floor(&self) -> u64 {
        self.largest.map_or(0, |largest| largest.saturating_sub(WINDOW - 1))
    }

    /// "the larger of it and the window's own floor is used for ranges, missing numbers and refusal 7" (document 02, No. 12)
    pub fn floor(&self) -> u64 {
        self.confirmed.max(self.window_floor())
    }

    /// The smallest number from one up to but not another that was not received; "sought only in the window", from the floor.
    pub fn first_missing(&self, from: u64, to: u64) -> Option<u64> {
        let mut wanted = from.max(self.floor());
        if wanted >= to {
            return None;
        }
        for number in self.received.range(wanted..to) {
            if *number != wanted {
                break;
            }
            wanted += 1;
        }
        Some(wanted).filter(|missing| *missing < to)
    }

    /// The ranges of received numbers from the floor up, smallest and largest of each, newest first.
    pub fn ranges(&self) -> Vec<(u64, u64)> {
        let mut ranges: Vec<(u64, u64)> = Vec::new();
        for number in self.received.range(self.floor()..).rev() {
            match ranges.last_mut() {
                Some((smallest, _)) if *smallest == *number + 1 => *smallest = *number,
                _ => ranges.push((*number, *number)),
            }
        }
        ranges
    }

    /// "Consistent means": the clauses in the paper's order.
    pub fn consistent(&self) -> bool {
        self.numbers_obey()
            // "N is at most 2^62"
            && self.pending <= LARGEST + 1
            // "the delay rule holds", for the own delays and for the delay in force
            && own_delays_obey(self.maximum_ms, self.minimum_us)
            && delay_obeys(self.delay, self.minimum_us)
            // "the cause is 0 to 5"
            && self.cause <= 5
            && self.ends_agree()
            && self.marks_agree()
            && self.floor_agrees()
    }

    /// "every number and time obeys 5"; "1 also for a total above that", which is 2^62 - 1 (document 02, No. 2)
    fn numbers_obey(&self) -> bool {
        let always =
            [self.arrived, self.pending_first, self.threshold, self.reordering, self.delay, self.maximum_ms, self.minimum_us];
        let absent_or = [self.largest, self.acknowledged, self.highest, self.pending_largest, self.sequence];
        always.iter().chain(absent_or.iter().flatten()).chain(&self.totals.all()).all(|number| *number <= LARGEST)
    }

    /// "A, H and U are each absent or at most L; U is absent exactly when N is 0"; with nothing received they "are absent
    /// and N and the cause are 0".
    fn ends_agree(&self) -> bool {
        let three = [self.acknowledged, self.highest, self.pending_largest];
        self.pending_largest.is_none() == (self.pending == 0)
            && match self.largest {
                Some(largest) => three.iter().flatten().all(|number| *number <= largest),
                None => three.iter().all(Option::is_none) && self.pending == 0 && self.cause == 0,
            }
    }

    /// "L's own place is marked and none below number 0; if nothing was received, no place is marked"
    fn marks_agree(&self) -> bool {
        !self.strays && self.received.iter().next_back().copied() == self.largest
    }

    /// "the floor is at most L, and 0 while nothing was received" (document 02, No. 12)
    fn floor_agrees(&self) -> bool {
        self.confirmed <= self.largest.unwrap_or(0)
    }
}
