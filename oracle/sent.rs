//! Document 02, No. 9: the sending side's loss list, "a record of up to 1,024 sent packet numbers in a row, counted from 0".

use crate::frames::read_ack;
use crate::numbers::{judge_numbers, LARGEST};
use crate::refusals::{INCONSISTENT, NEVER_SENT, NO_ROOM};
use std::collections::BTreeSet;

/// "up to 1,024 sent packet numbers"
pub const HELD: u64 = 1024;
/// RFC 9002 section 6.1.1: the packet threshold, "at least n + 3".
const THRESHOLD: u64 = 3;

/// "each outstanding, acknowledged or lost": a number that neither set has is outstanding.
#[derive(Clone, Debug, Default, PartialEq, Eq)]
pub struct Losses {
    /// The next number to be sent, which is how many were sent.
    pub next: u64,
    pub acknowledged: BTreeSet<u64>,
    pub lost: BTreeSet<u64>,
    /// "the forgotten number keeps its last state in the totals"
    pub forgotten_acknowledged: u64,
    pub forgotten_lost: u64,
    /// "the largest acknowledged": of all frames so far.
    pub largest: Option<u64>,
}

/// "The answer lists newly acknowledged and newly lost numbers, rising, each once."
#[derive(Clone, Debug, Default, PartialEq, Eq)]
pub struct Heard {
    pub acknowledged: Vec<u64>,
    pub lost: Vec<u64>,
    /// The frame's length.
    pub used: usize,
}

impl Losses {
    /// The oldest number that is held.
    pub fn oldest(&self) -> u64 {
        self.next.saturating_sub(HELD)
    }

    pub fn outstanding(&self, number: u64) -> bool {
        !self.acknowledged.contains(&number) && !self.lost.contains(&number)
    }

    /// "an outstanding number n is lost if the largest acknowledged is at least n + 3"
    fn passed(&self, number: u64) -> bool {
        self.largest.map_or(false, |largest| u128::from(largest) >= u128::from(number) + u128::from(THRESHOLD))
    }

    /// Outstanding numbers that the rule makes lost, rising.
    fn overdue(&self) -> Vec<u64> {
        (self.oldest()..self.next).filter(|number| self.outstanding(*number) && self.passed(*number)).collect()
    }

    /// What the record breaks of the decision on 1, as the comparison counts it where nothing else is broken.
    pub fn faults(&self) -> Vec<&'static str> {
        let forgotten = u128::from(self.forgotten_acknowledged) + u128::from(self.forgotten_lost);
        let held = self.oldest()..self.next;
        let clauses = [
            ("1 for nothing but a number both acknowledged and lost", self.acknowledged.is_disjoint(&self.lost)),
            (
                "1 for nothing but a mark outside the held numbers",
                self.acknowledged.union(&self.lost).all(|number| held.contains(number)),
            ),
            ("1 for nothing but too few forgotten numbers", forgotten >= u128::from(self.oldest())),
            ("1 for nothing but too many forgotten numbers", forgotten <= u128::from(self.oldest())),
            ("1 for nothing but a next number above 2^62", self.next <= LARGEST + 1),
            (
                "1 for nothing but a largest acknowledged number that was never sent",
                self.largest.map_or(true, |largest| largest < self.next),
            ),
            ("1 for nothing but an outstanding number that should be lost", self.overdue().is_empty()),
        ];
        clauses.into_iter().filter(|(_, holds)| !holds).map(|(clause, _)| clause).collect()
    }

    pub fn consistent(&self) -> bool {
        self.faults().is_empty()
    }

    /// How many are outstanding, acknowledged and lost, the forgotten ones included.
    pub fn counts(&self) -> [u64; 3] {
        let outstanding = (self.oldest()..self.next).filter(|number| self.outstanding(*number)).count() as u64;
        let acknowledged = self.forgotten_acknowledged + self.acknowledged.len() as u64;
        [outstanding, acknowledged, self.forgotten_lost + self.lost.len() as u64]
    }

    /// "for a send 5 past number 2^62 - 1, then 9 when 1,024 are held and the oldest is outstanding"
    pub fn send(&mut self) -> Result<u64, u64> {
        self.judge_record()?;
        judge_numbers(&[self.next])?;
        // "When 1,024 are held and the oldest is no longer outstanding, a send uses its room"
        if self.next >= HELD {
            let oldest = self.oldest();
            if self.acknowledged.remove(&oldest) {
                self.forgotten_acknowledged += 1;
            } else if self.lost.remove(&oldest) {
                self.forgotten_lost += 1;
            } else {
                return Err(NO_ROOM);
            }
        }
        self.next += 1;
        Ok(self.next - 1)
    }

    /// An ACK frame and two lent lists. "Refusals, after those of the ACK reader: 16 for an acknowledged number never sent, then
    /// 9 for a list without room". A refused call changes nothing.
    pub fn heard(&mut self, frame: &[u8], acknowledged: &mut [u64], lost: &mut [u64]) -> Result<Heard, u64> {
        self.judge_record()?;
        let ack = read_ack(frame)?;
        if ack.largest >= self.next {
            return Err(NEVER_SENT);
        }
        let mut after = self.clone();
        // "An ACK frame marks its ranges"; "an ACK range over [a forgotten number] changes nothing"
        for number in self.oldest()..self.next {
            if ack.ranges.iter().any(|(smallest, largest)| (smallest..=largest).contains(&&number)) {
                // "A lost number acknowledged later becomes acknowledged"
                after.lost.remove(&number);
                after.acknowledged.insert(number);
            }
        }
        after.largest = after.largest.max(Some(ack.largest));
        after.lost.extend(after.overdue());
        let heard = Heard {
            acknowledged: after.acknowledged.difference(&self.acknowledged).copied().collect(),
            lost: after.lost.difference(&self.lost).copied().collect(),
            used: ack.used,
        };
        let room = (acknowledged.get_mut(..heard.acknowledged.len()), lost.get_mut(..heard.lost.len()));
        let (Some(acknowledged), Some(lost)) = room else { return Err(NO_ROOM) };
        acknowledged.copy_from_slice(&heard.acknowledged);
        lost.copy_from_slice(&heard.lost);
        *self = after;
        Ok(heard)
    }

    fn judge_record(&self) -> Result<(), u64> {
        if !self.consistent() {
            return Err(INCONSISTENT);
        }
        Ok(())
    }
}
