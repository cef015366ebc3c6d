//! The tracker of object statuses: what became of 256 media objects in a row.

use crate::raw;
use crate::refusal::accepted;
use crate::{Header, Micros, Refusal};

/// So many objects are tracked, and at most so many records does a report of them have.
pub const TRACKED: usize = 256;

/// What became of the 256 objects from a first one on. A refused call leaves it as it was.
#[derive(Clone, Debug, PartialEq, Eq)]
pub struct Tracker {
    record: raw::Tracker,
}

/// The summary and the records that a tracker made: [`Header::write`] takes both as they are.
#[derive(Clone, Copy, Debug, PartialEq, Eq)]
#[must_use]
pub struct Made<'a> {
    /// The summary, without metrics.
    pub header: Header,
    /// A record for each object with a status, rising by object.
    pub records: &'a [[u8; 16]],
}

impl Tracker {
    /// Opens a tracker for the 256 objects from `first` on, which are expected at the given interval.
    ///
    /// # Errors
    /// [`Refusal::TooLarge`], for the last of the 256 too.
    pub fn open(first: u64, interval: Micros) -> Result<Tracker, Refusal> {
        let mut record = raw::Tracker { first: 0, interval: 0, named: 0, objects: [0; TRACKED] };
        accepted(unsafe { raw::lumbixet_tracker_open(&mut record, first, interval.0) })?;
        Ok(Tracker { record })
    }

    /// An object arrived whole: late if that was after its deadline. A second arrival is ignored.
    ///
    /// # Errors
    /// [`Refusal::Inconsistent`], [`Refusal::TooLarge`], then [`Refusal::Outside`].
    pub fn arrived(&mut self, object: u64, time: Micros, deadline: Option<Micros>) -> Result<(), Refusal> {
        // One past the deadline, and 0 for none; a deadline that has no number after it is too large all the same.
        let end = deadline.map_or(0, |Micros(deadline)| deadline.saturating_add(1));
        accepted(unsafe { raw::lumbixet_tracker_arrived(&mut self.record, object, time.0, end) })
    }

    /// An object ended early: it is partial unless it arrives. A second early end, or one after an arrival, is ignored.
    ///
    /// # Errors
    /// [`Refusal::Inconsistent`], [`Refusal::TooLarge`], then [`Refusal::Outside`].
    pub fn ended_early(&mut self, object: u64, time: Micros) -> Result<(), Refusal> {
        accepted(unsafe { raw::lumbixet_tracker_ended_early(&mut self.record, object, time.0) })
    }

    /// Makes the summary and the records for a time and a report interval. [`TRACKED`] records always suffice.
    ///
    /// # Errors
    /// [`Refusal::Inconsistent`], [`Refusal::TooLarge`], for an average outside its range too, then [`Refusal::NoRoom`].
    pub fn report<'a>(&self, time: Micros, interval: Micros, room: &'a mut [[u8; 16]]) -> Result<Made<'a>, Refusal> {
        let (start, length) = (room.as_mut_ptr().cast(), 16 * room.len());
        let made = unsafe { raw::lumbixet_tracker_report(&self.record, time.0, interval.0, start, length) };
        accepted(made.result)?;
        Ok(Made { header: Header::from_raw(&made.header), records: &room[..made.header.entries as usize] })
    }

    /// The record, to keep or to look into.
    #[must_use]
    pub fn record(&self) -> &raw::Tracker {
        &self.record
    }

    /// A tracker that goes on from a record that was kept.
    #[must_use]
    pub fn from_record(record: raw::Tracker) -> Tracker {
        Tracker { record }
    }
}
