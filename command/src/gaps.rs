//! The numbers that were passed over: those that may still come, and those that never came.

use std::collections::BTreeMap;

/// How many numbers below the largest can still come (document 01, "The receiver record").
const WINDOW: u64 = 1024;

/// How a number was passed over: when, by which number, and at what pace, in microseconds a number.
#[derive(Clone, Copy)]
pub struct Passed {
    pub time: i64,
    by: u64,
    pace: f64,
}

impl Passed {
    /// When the number would have come at the usual pace, between its neighbours.
    pub fn expected(&self, number: u64, usual: f64) -> f64 {
        self.time as f64 - self.by.saturating_sub(number) as f64 * self.pace.min(usual)
    }
}

/// Numbers in a row that never came.
#[derive(Clone, Copy)]
pub struct Gap {
    pub first: u64,
    pub last: u64,
    pub passed: Passed,
}

impl Gap {
    pub fn count(&self) -> u64 {
        self.last - self.first + 1
    }
}

pub enum Arrival {
    /// Above all others so far, at what pace.
    InOrder(f64),
    /// Below the largest.
    Late(Passed),
}

#[derive(Default)]
pub struct Gaps {
    /// One past the largest number.
    end: u64,
    /// When that came.
    arrived: i64,
    /// By their first numbers.
    open: BTreeMap<u64, Gap>,
}

impl Gaps {
    /// A packet was accepted.
    pub fn packet(&mut self, number: u64, time: i64) -> Arrival {
        if number < self.end {
            return Arrival::Late(self.take_out(number, time));
        }
        let pace = (time - self.arrived) as f64 / (number + 1 - self.end) as f64;
        if number > self.end {
            let gap = Gap { first: self.end, last: number - 1, passed: Passed { time, by: number, pace } };
            self.open.insert(gap.first, gap);
        }
        self.end = number + 1;
        self.arrived = time;
        Arrival::InOrder(pace)
    }

    fn take_out(&mut self, number: u64, time: i64) -> Passed {
        let below = self.open.range(..=number).next_back().map(|(_, gap)| *gap).filter(|gap| number <= gap.last);
        match below {
            Some(gap) => {
                self.open.remove(&gap.first);
                if gap.first < number {
                    self.open.insert(gap.first, Gap { last: number - 1, ..gap });
                }
                if number < gap.last {
                    self.open.insert(number + 1, Gap { first: number + 1, ..gap });
                }
                gap.passed
            }
            None => Passed { time, by: number, pace: 0.0 },
        }
    }

    /// The first gap of which nothing can come any more.
    pub fn close_one(&mut self) -> Option<Gap> {
        let gap = *self.open.values().next()?;
        if gap.last + WINDOW < self.end {
            self.open.remove(&gap.first)
        } else {
            None
        }
    }

    /// The gaps that are left at the end.
    pub fn close_all(&mut self) -> Vec<Gap> {
        std::mem::take(&mut self.open).into_values().collect()
    }
}
