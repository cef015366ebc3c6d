//! The receiver: one record for each packet number space, and its calls.

use crate::raw;
use crate::refusal::accepted;
use crate::{Cause, Frequency, Mark, Micros, Millis, Refusal, Totals};

/// `LUMBIXET_STALE`, the result of an obsolete threshold frame.
const STALE: u64 = 255;

/// What a threshold frame that was not refused came to.
#[derive(Clone, Copy, Debug, PartialEq, Eq)]
#[must_use]
pub enum Heard {
    /// Thresholds, delay and sequence are now the frame's.
    Changed,
    /// The frame is obsolete: its sequence is not above the largest processed. Nothing changed.
    Stale,
}

/// A packet that arrived.
#[derive(Clone, Copy, Debug, PartialEq, Eq)]
pub struct Packet {
    /// Its packet number.
    pub number: u64,
    /// When it arrived.
    pub time: Micros,
    /// Whether it is ack-eliciting.
    pub eliciting: bool,
    /// The mark that it carried.
    pub mark: Mark,
}

/// The receiver of one packet number space. A refused call leaves it as it was. Packets, timer and writes update the record
/// where it stands; the rarer calls hand it over by value. It is copied by `clone` alone: of two that go on from one, one is forgotten.
#[derive(Clone, Debug, PartialEq, Eq)]
pub struct Receiver {
    record: raw::Receiver,
}

impl Receiver {
    /// Opens a receiver: ack-eliciting threshold, reordering threshold, the own maximum and minimum delay.
    ///
    /// # Errors
    /// [`Refusal::TooLarge`], then [`Refusal::Delay`].
    pub fn open(threshold: u64, reordering: u64, maximum: Millis, minimum: Micros) -> Result<Receiver, Refusal> {
        let answer = unsafe { raw::lumbixet_open(threshold, reordering, maximum.0, minimum.0) };
        accepted(answer.result).map(|()| Receiver { record: answer.next })
    }

    /// A packet arrives. Says why an acknowledgment is due now, if one is.
    ///
    /// # Errors
    /// [`Refusal::Inconsistent`], [`Refusal::TooLarge`], then [`Refusal::Repeated`] or [`Refusal::BelowWindow`].
    pub fn packet(&mut self, packet: Packet) -> Result<Option<Cause>, Refusal> {
        let Packet { number, time, eliciting, mark } = packet;
        let result = unsafe { raw::lumbixet_packet_lent(&mut self.record, number, time.0, eliciting, mark.ecn()) };
        accepted(result).map(|()| self.cause())
    }

    /// The timer is looked at. Says why an acknowledgment is due now, if one is.
    ///
    /// # Errors
    /// [`Refusal::Inconsistent`], [`Refusal::TooLarge`].
    pub fn timer(&mut self, now: Micros) -> Result<Option<Cause>, Refusal> {
        let result = unsafe { raw::lumbixet_timer_lent(&mut self.record, now.0) };
        accepted(result).map(|()| self.cause())
    }

    /// An IMMEDIATE_ACK frame arrives. Says why an acknowledgment is due now: an earlier cause stays.
    ///
    /// # Errors
    /// [`Refusal::Inconsistent`], [`Refusal::NothingYet`].
    pub fn immediate(&mut self) -> Result<Option<Cause>, Refusal> {
        self.take(unsafe { raw::lumbixet_immediate(self.record) })
    }

    /// An ACK_FREQUENCY frame arrives. It makes nothing due by itself.
    ///
    /// # Errors
    /// [`Refusal::Inconsistent`], [`Refusal::TooLarge`], [`Refusal::Delay`].
    pub fn threshold(&mut self, frame: Frequency) -> Result<Heard, Refusal> {
        let Frequency { sequence, threshold, delay, reordering } = frame;
        let answer = unsafe { raw::lumbixet_threshold(self.record, sequence, threshold, delay.0, reordering) };
        if answer.result == STALE {
            return Ok(Heard::Stale);
        }
        self.take(answer).map(|_| Heard::Changed)
    }

    /// A packet of ours that carried an ACK frame is itself acknowledged: `largest` is that frame's largest number. Numbers
    /// up to it are reported no more, but for the largest received one. It makes nothing due, and no cause is taken away.
    ///
    /// # Errors
    /// [`Refusal::Inconsistent`], [`Refusal::TooLarge`], [`Refusal::NothingYet`], then [`Refusal::NotAcknowledged`].
    pub fn confirm(&mut self, largest: u64) -> Result<(), Refusal> {
        self.take(unsafe { raw::lumbixet_confirm(self.record, largest) }).map(|_| ())
    }

    /// Writes an ACK frame of type 02 at the start of the buffer, with as many newest ranges as fit, and gives the frame's
    /// bytes. It may be written whether one is due or not. [`ACK_ROOM`](crate::ACK_ROOM) bytes hold all ranges. Where sending
    /// may fail, keep a clone of the receiver from before: with it the ACK is still due.
    ///
    /// # Errors
    /// [`Refusal::Inconsistent`], [`Refusal::TooLarge`], [`Refusal::NothingYet`], [`Refusal::NoRoom`].
    pub fn write<'a>(&mut self, now: Micros, buffer: &'a mut [u8]) -> Result<&'a [u8], Refusal> {
        self.write_as(now, false, buffer)
    }

    /// Writes an ACK frame of type 03: as [`write`](Receiver::write), and behind the ranges the counts of
    /// [`totals`](Receiver::totals), which take of the room.
    ///
    /// # Errors
    /// As [`write`](Receiver::write).
    pub fn write_with_counts<'a>(&mut self, now: Micros, buffer: &'a mut [u8]) -> Result<&'a [u8], Refusal> {
        self.write_as(now, true, buffer)
    }

    fn write_as<'a>(&mut self, now: Micros, counts: bool, buffer: &'a mut [u8]) -> Result<&'a [u8], Refusal> {
        let (start, room) = (buffer.as_mut_ptr(), buffer.len());
        let wrote = unsafe { raw::lumbixet_write_lent(&mut self.record, now.0, counts, start, room) };
        accepted(wrote.result).map(|()| &buffer[..wrote.length as usize])
    }

    /// Why an acknowledgment is due, if one is.
    #[must_use]
    pub fn cause(&self) -> Option<Cause> {
        Cause::from_number(self.record.cause)
    }

    /// When to look at the timer: the first unacknowledged arrival plus the delay in force. `None` while nothing is
    /// pending, and while an acknowledgment is due already.
    #[must_use]
    pub fn wake(&self) -> Option<Micros> {
        let waiting = self.record.pending_count > 0 && self.record.cause == 0;
        waiting.then(|| Micros(self.record.pending_first.saturating_add(self.record.delay)))
    }

    /// The floor that confirmations raised: smaller numbers are reported no more, and refused with
    /// [`Refusal::BelowWindow`].
    #[must_use]
    pub fn confirmed(&self) -> u64 {
        self.record.confirmed
    }

    /// How many accepted packets, ack-eliciting or not, carried each mark.
    #[must_use]
    pub fn totals(&self) -> Totals {
        Totals::of(&self.record)
    }

    /// The ack-eliciting threshold in force.
    #[must_use]
    pub fn ack_eliciting_threshold(&self) -> u64 {
        self.record.threshold
    }

    /// The reordering threshold in force.
    #[must_use]
    pub fn reordering_threshold(&self) -> u64 {
        self.record.reordering
    }

    /// The delay in force.
    #[must_use]
    pub fn delay(&self) -> Micros {
        Micros(self.record.delay)
    }

    /// The record itself, to log it or to keep it.
    #[must_use]
    pub fn record(&self) -> &raw::Receiver {
        &self.record
    }

    /// A receiver over a record that was kept; any record may be given, and one that is not consistent is refused with
    /// [`Refusal::Inconsistent`] by the next call.
    #[must_use]
    pub fn from_record(record: raw::Receiver) -> Receiver {
        Receiver { record }
    }

    /// Takes the record that a call by value handed back.
    fn take(&mut self, answer: raw::Answer) -> Result<Option<Cause>, Refusal> {
        accepted(answer.result)?;
        self.record = answer.next;
        Ok(self.cause())
    }
}

/// The usual opening: thresholds 1 and 1, 25 milliseconds, 1,000 microseconds.
impl Default for Receiver {
    fn default() -> Receiver {
        Receiver { record: unsafe { raw::lumbixet_open(1, 1, 25, 1000) }.next }
    }
}
