//! The line from the sender to the receiver: a rate, a delay, a queue that drops at its end, loss, interruptions, reordering and
//! ECN marks. What it does at a moment is the same whatever was sent before, so that two receivers meet the same line.

use crate::chance::drawn;

/// What a line is like. Times are in microseconds.
#[derive(Clone, Copy)]
pub struct Nature {
    /// Bits a second.
    pub rate: u64,
    /// From the end of sending to the arrival.
    pub delay: u64,
    /// How long a packet waits at most before it is dropped.
    pub longest_wait: u64,
    /// Of a million milliseconds, so many lose what is sent in them.
    pub loss: u64,
    /// Of a million milliseconds, so many delay what is sent in them by `reordered_by` more.
    pub reordering: u64,
    pub reordered_by: u64,
    /// So long an interruption, every so often; what is sent in it is lost.
    pub interruption: u64,
    pub every: u64,
    /// A packet that waits longer than this is marked CE; `u64::MAX` for a line that marks nothing.
    pub marked_after: u64,
}

/// What becomes of a packet.
pub enum Fate {
    Lost,
    Arrives { at: u64, marked: bool },
}

pub struct Line {
    nature: Nature,
    seed: u64,
    free_at: u64,
}

impl Line {
    pub fn new(nature: Nature, seed: u64) -> Line {
        Line { nature, seed, free_at: 0 }
    }

    pub fn interrupted(&self, now: u64) -> bool {
        let Nature { interruption, every, .. } = self.nature;
        every > 0 && now >= every && now % every < interruption
    }

    pub fn send(&mut self, now: u64, bytes: u64) -> Fate {
        let nature = self.nature;
        let begins = self.free_at.max(now);
        let wait = begins - now;
        if self.interrupted(now) || wait > nature.longest_wait {
            return Fate::Lost;
        }
        self.free_at = begins + bytes * 8_000_000 / nature.rate;
        let slot = now / 1000;
        if drawn(self.seed, 2 * slot) < nature.loss {
            return Fate::Lost;
        }
        let later = if drawn(self.seed, 2 * slot + 1) < nature.reordering { nature.reordered_by } else { 0 };
        Fate::Arrives { at: self.free_at + nature.delay + later, marked: wait > nature.marked_after }
    }
}
