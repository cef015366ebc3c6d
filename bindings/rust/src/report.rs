//! The feedback report, read and written.

use crate::profile::{Metrics, Profile, Record};
use crate::raw;
use crate::refusal::accepted;
use crate::{Micros, Refusal};

/// The summary of a report, and its metrics.
#[derive(Clone, Copy, Debug, Default, PartialEq, Eq)]
pub struct Header {
    /// When the report was made.
    pub timestamp: Micros,
    /// How long the reported interval is.
    pub interval: Micros,
    /// Objects that the report speaks of: received + late + lost.
    pub total: u64,
    /// Objects that were received in time.
    pub received: u64,
    /// Objects that were received late.
    pub late: u64,
    /// Objects that were lost.
    pub lost: u64,
    /// The average deviation of the intervals between arrivals, in microseconds, from -2^61 to 2^61 - 1.
    pub average: i64,
    /// The metrics that the report has.
    pub metrics: Metrics,
}

impl Header {
    /// Writes a report at the start of the buffer: the header, then the longest run of last records, at most
    /// [`ENTRIES`](crate::ENTRIES), that fits. 0 to 256 records may be given, and their size says which profile the report
    /// has. [`REPORT_ROOM`](crate::REPORT_ROOM) bytes always suffice for profile 1,
    /// [`REPORT_2_ROOM`](crate::REPORT_2_ROOM) for profile 2.
    ///
    /// # Errors
    /// [`Refusal::TooLarge`], [`Refusal::Sum`], [`Refusal::CountOrType`] for the metrics or more than 256 records,
    /// [`Refusal::Entry`], [`Refusal::NoRoom`].
    pub fn write<'a, R: Record>(&self, buffer: &'a mut [u8], records: &[R]) -> Result<Written<'a>, Refusal> {
        self.write_at_most(crate::ENTRIES, buffer, records)
    }

    /// The same with at most so many records: [`OLD_ENTRIES`](crate::OLD_ENTRIES) for an old receiver. More room, or a
    /// higher maximum, never drops a record that was kept with less.
    ///
    /// # Errors
    /// Those of [`write`](Header::write), and [`Refusal::CountOrType`] for a maximum above [`ENTRIES`](crate::ENTRIES).
    pub fn write_at_most<'a, R: Record>(
        &self,
        maximum: u64,
        buffer: &'a mut [u8],
        records: &[R],
    ) -> Result<Written<'a>, Refusal> {
        let (profile, start, length) = (R::PROFILE.number(), buffer.as_mut_ptr(), buffer.len());
        let (header, first, size) = (self.to_raw(), records.as_ptr().cast(), core::mem::size_of_val(records));
        let written = unsafe { raw::lumbixet_write_report(profile, start, length, header, first, size, maximum) };
        accepted(written.result)?;
        Ok(Written { bytes: &buffer[..written.next as usize], kept: written.kept as usize })
    }

    fn to_raw(self) -> raw::Header {
        let Header { timestamp, interval, total, received, late, lost, average, metrics } = self;
        let mut header = raw::Header { total, received, late, lost, average, ..raw::Header::default() };
        header.timestamp = timestamp.0;
        header.interval = interval.0;
        (header.metrics, header.kinds, header.values) = metrics.parts();
        header
    }

    pub(crate) fn from_raw(header: &raw::Header) -> Header {
        let raw::Header { timestamp, interval, total, received, late, lost, average, .. } = *header;
        let metrics = Metrics::from_parts(header.metrics, &header.kinds, &header.values);
        let (timestamp, interval) = (Micros(timestamp), Micros(interval));
        Header { timestamp, interval, total, received, late, lost, average, metrics }
    }
}

/// A report that was written.
#[derive(Clone, Copy, Debug, PartialEq, Eq)]
#[must_use]
pub struct Written<'a> {
    /// The report.
    pub bytes: &'a [u8],
    /// How many of the last records it holds.
    pub kept: usize,
}

/// A report that was read: its header, and its entries as a part of the bytes that were given.
#[derive(Clone, Copy, Debug, PartialEq, Eq)]
pub struct Report<'a> {
    /// The summary and the metrics.
    pub header: Header,
    /// The entries.
    pub entries: Entries<'a>,
}

impl<'a> Report<'a> {
    /// Reads a whole report of a profile.
    ///
    /// # Errors
    /// [`Refusal::Ends`], [`Refusal::LongerForm`], [`Refusal::CountOrType`], [`Refusal::Sum`], [`Refusal::Entry`],
    /// [`Refusal::BytesBehind`].
    pub fn read(profile: Profile, bytes: &'a [u8]) -> Result<Report<'a>, Refusal> {
        let report = unsafe { raw::lumbixet_read_report(profile.number(), bytes.as_ptr(), bytes.len()) };
        accepted(report.result)?;
        let part = unsafe { raw::lumbixet_find_entries(profile.number(), bytes.as_ptr(), bytes.len()) };
        let entries = Entries { profile, bytes: &bytes[part.start as usize..][..part.length as usize] };
        Ok(Report { header: Header::from_raw(&report.header), entries })
    }

    /// The last object of a report that is marked not received; `None` where there is none. It searches from the end and
    /// stops there: a bad entry before that one goes unnoticed. [`read`](Report::read) judges all of a report.
    ///
    /// # Errors
    /// Those of [`read`](Report::read); here [`Refusal::BytesBehind`] comes before [`Refusal::Entry`].
    pub fn newest_lost(profile: Profile, bytes: &[u8]) -> Result<Option<Lost>, Refusal> {
        let newest = unsafe { raw::lumbixet_newest_lost(profile.number(), bytes.as_ptr(), bytes.len()) };
        accepted(newest.result)?;
        Ok((newest.found != 0).then_some(Lost { group: newest.group, object: newest.object }))
    }
}

/// An object that was not received.
#[derive(Clone, Copy, Debug, PartialEq, Eq, PartialOrd, Ord, Hash)]
pub struct Lost {
    /// Its group; 0 in profile 1.
    pub group: u64,
    /// Its number.
    pub object: u64,
}

/// The entries of a report, each of its profile's size.
#[derive(Clone, Copy, Debug, PartialEq, Eq)]
pub struct Entries<'a> {
    profile: Profile,
    bytes: &'a [u8],
}

impl<'a> Entries<'a> {
    pub(crate) fn of(profile: Profile, bytes: &'a [u8]) -> Entries<'a> {
        Entries { profile, bytes }
    }

    /// Their bytes in the report.
    #[must_use]
    pub fn bytes(&self) -> &'a [u8] {
        self.bytes
    }

    /// How many there are.
    #[must_use]
    pub fn len(&self) -> usize {
        self.bytes.len() / self.profile.record_size()
    }

    /// Whether there is none.
    #[must_use]
    pub fn is_empty(&self) -> bool {
        self.bytes.is_empty()
    }

    /// One of them; `None` from [`len`](Entries::len) on.
    #[must_use]
    pub fn get(&self, index: usize) -> Option<Entry> {
        Entry::read(self.profile, self.bytes, index).ok()
    }

    /// All of them, by rising object number; in profile 2 by rising group, then object.
    pub fn iter(&self) -> impl Iterator<Item = Entry> + 'a {
        let Entries { profile, bytes } = *self;
        (0..self.len()).filter_map(move |index| Entry::read(profile, bytes, index).ok())
    }
}

/// What became of a media object.
#[derive(Clone, Copy, Debug, PartialEq, Eq, Hash)]
pub enum Status {
    /// 0: it was received.
    Received,
    /// 1: it was received late.
    Late,
    /// 2: it was not received.
    NotReceived,
    /// 3: it was received in part.
    Partial,
}

/// One entry of a report.
#[derive(Clone, Copy, Debug, PartialEq, Eq)]
pub struct Entry {
    /// The object's group, at most 2^62 - 1; 0 in profile 1.
    pub group: u64,
    /// The object's number, at most 2^62 - 1.
    pub object: u64,
    /// What became of it.
    pub status: Status,
    /// Its age at the report's timestamp, in microseconds; 0 where it was not received.
    pub age: u32,
}

impl Entry {
    /// Reads record `index` of a profile's records in a row, each by itself; that they rise, [`Report::read`] judges.
    ///
    /// # Errors
    /// [`Refusal::Ends`], [`Refusal::Entry`].
    pub fn read(profile: Profile, records: &[u8], index: usize) -> Result<Entry, Refusal> {
        let entry = unsafe { raw::lumbixet_read_entry(profile.number(), records.as_ptr(), records.len(), index) };
        accepted(entry.result)?;
        let status = match entry.status {
            0 => Status::Received,
            1 => Status::Late,
            2 => Status::NotReceived,
            _ => Status::Partial,
        };
        Ok(Entry { group: entry.group, object: entry.object, status, age: entry.age as u32 })
    }

    /// The record of profile 1, which has no group, as [`Header::write`] takes it; that judges it.
    #[must_use]
    pub fn record(&self) -> [u8; 16] {
        let mut record = [0; 16];
        record[..8].copy_from_slice(&self.object.to_be_bytes());
        record[8] = self.status as u8;
        record[12..].copy_from_slice(&self.age.to_be_bytes());
        record
    }

    /// The record of profile 2, which begins with the group.
    #[must_use]
    pub fn record_with_group(&self) -> [u8; 24] {
        let mut record = [0; 24];
        record[..8].copy_from_slice(&self.group.to_be_bytes());
        record[8..].copy_from_slice(&self.record());
        record
    }
}
