//! Document 02, No. 6: a reader of reports that arrive over several reads. It goes byte by byte and carries the bytes of the one
//! field or record that is not whole yet; it never has the report's other bytes.

use crate::numbers::{read, Number};
use crate::profile::{read_record, Profile};
use crate::refusals::{ACCEPTED, BYTES_BEHIND, ENDS, ENTRY, LONGER_FORM, NO_ROOM};
use crate::report::{judge_entry_count, judge_metric_count, judge_sum, judge_type, restored, Header, MOST_ENTRIES};

/// What the next byte belongs to, in the order of document 01, "The feedback report".
#[derive(Clone, Copy, Debug, PartialEq, Eq)]
pub enum Awaited {
    Timestamp,
    Interval,
    Total,
    Received,
    Late,
    Lost,
    Average,
    MetricCount,
    Kind(usize),
    Value(usize),
    EntryCount,
    /// A record; so many are still to come, this one included.
    Record(u64),
    /// "After a bad record it delivers nothing more and counts the bytes on": so many entry bytes are still to come.
    Counted(u64),
    /// Nothing: the report is whole.
    Behind,
}

/// A report as far as it has come.
#[derive(Clone, Debug, PartialEq, Eq)]
pub struct Pieces {
    pub profile: Profile,
    /// The numbers that came; those to come are 0.
    pub header: Header,
    pub awaited: Awaited,
    /// "carries at most one unfinished field or record between calls": its bytes so far.
    pub carried: Vec<u8>,
    /// The least group and object that the next record may have.
    pub least: (u64, u64),
    /// What a fault or the end came to, 0 included: "later calls give these again".
    pub settled: Option<u64>,
}

/// What a part brings.
#[derive(Clone, Copy, Debug, PartialEq, Eq)]
pub struct Taken {
    pub result: u64,
    /// How many bytes of the part were taken.
    pub bytes: usize,
    /// How many records were written to the lent buffer.
    pub records: usize,
    /// "The header is handed over as soon as it is whole"; none beside a refusal.
    pub header: Option<Header>,
}

impl Taken {
    /// A call that is refused before it takes a byte.
    pub fn refused(result: u64) -> Taken {
        Taken { result, bytes: 0, records: 0, header: None }
    }
}

/// "The opening of the reader in pieces takes the profile (18)".
pub fn open(profile: u64) -> Result<Pieces, u64> {
    let profile = Profile::of(profile)?;
    let (header, awaited) = (Header::default(), Awaited::Timestamp);
    Ok(Pieces { profile, header, awaited, carried: Vec::new(), least: (0, 0), settled: None })
}

impl Pieces {
    /// "accepts successive parts .. and writes complete entries to a lent buffer that the caller empties"
    pub fn take(&mut self, part: &[u8], buffer: &mut [u8]) -> Taken {
        let size = self.profile.record();
        // "9 if the buffer holds no whole record, before any byte is taken"; it does not stand
        if buffer.len() < size {
            return Taken::refused(NO_ROOM);
        }
        let (mut bytes, mut records) = (0, 0);
        for byte in part {
            // "When the buffer is full the call takes no byte of a further record"
            let full = buffer.len() - records * size < size;
            if self.stands().is_some() || (full && matches!(self.awaited, Awaited::Record(_))) {
                break;
            }
            bytes += 1;
            if let Some(record) = self.byte(*byte) {
                buffer[records * size..][..size].copy_from_slice(&record);
                records += 1;
            }
        }
        let result = self.stands().unwrap_or(ACCEPTED);
        Taken { result, bytes, records, header: self.whole_header() }
    }

    /// "The caller says the end." It is accepted where the report is whole; "2 if the end comes first".
    pub fn end(&mut self) -> Result<Header, u64> {
        let comes_to = if self.awaited == Awaited::Behind { ACCEPTED } else { ENDS };
        let result = self.stands().unwrap_or(comes_to);
        self.settled = Some(result);
        self.whole_header().ok_or(result)
    }

    /// A refusal stands: "later calls give these again".
    pub fn is_refused(&self) -> bool {
        self.stands().unwrap_or(ACCEPTED) != ACCEPTED
    }

    /// The last number of the header has come.
    pub fn is_headed(&self) -> bool {
        matches!(self.awaited, Awaited::Record(_) | Awaited::Counted(_) | Awaited::Behind)
    }

    /// The answer that stands: "12 is given when all the report's entry bytes have come".
    fn stands(&self) -> Option<u64> {
        let counted = Some(ENTRY).filter(|_| self.awaited == Awaited::Counted(0));
        self.settled.or(counted)
    }

    /// The header, once its last number has come; none beside a refusal.
    fn whole_header(&self) -> Option<Header> {
        Some(self.header).filter(|_| self.is_headed() && !self.is_refused())
    }

    /// One byte more. Gives the record that it completes, where that is a good one.
    fn byte(&mut self, byte: u8) -> Option<Vec<u8>> {
        match self.awaited {
            // "13 comes with the first byte too many"
            Awaited::Behind => self.settled = Some(BYTES_BEHIND),
            Awaited::Counted(left) => self.awaited = Awaited::Counted(left - 1),
            Awaited::Record(left) => {
                self.carried.push(byte);
                if self.carried.len() == self.profile.record() {
                    return self.record(left - 1);
                }
            }
            _ => {
                self.carried.push(byte);
                // a number that is cut is not whole yet
                if let Ok(number) = read(&self.carried, 0) {
                    self.carried.clear();
                    self.settled = self.number(number).err();
                }
            }
        }
        None
    }

    /// The carried record is whole, and so many come after it. It is good if it obeys its rule and "They rise by group, then object."
    fn record(&mut self, left: u64) -> Option<Vec<u8>> {
        let record = std::mem::take(&mut self.carried);
        match read_record(self.profile, &record) {
            Ok(entry) if (entry.group, entry.object) >= self.least => {
                self.least = (entry.group, entry.object + 1);
                self.awaited = records_to_come(left);
                Some(record)
            }
            _ => {
                self.awaited = Awaited::Counted(left * self.profile.record() as u64);
                None
            }
        }
    }

    /// A number of the header is whole: "15, given at the field, before 10 and 11"; then its own rule.
    pub fn number(&mut self, number: Number) -> Result<(), u64> {
        if !number.shortest {
            return Err(LONGER_FORM);
        }
        let (value, header) = (number.value, &mut self.header);
        self.awaited = match self.awaited {
            Awaited::Timestamp => next(&mut header.timestamp, value, Awaited::Interval),
            Awaited::Interval => next(&mut header.interval, value, Awaited::Total),
            Awaited::Total => next(&mut header.total, value, Awaited::Received),
            Awaited::Received => next(&mut header.received, value, Awaited::Late),
            Awaited::Late => next(&mut header.late, value, Awaited::Lost),
            Awaited::Lost => {
                header.lost = value;
                judge_sum(header)?;
                Awaited::Average
            }
            Awaited::Average => {
                header.average = restored(value);
                Awaited::MetricCount
            }
            Awaited::MetricCount => {
                judge_metric_count(self.profile, value)?;
                header.metrics = value;
                metric_or_count(header, 0)
            }
            Awaited::Kind(index) => {
                header.kinds[index] = value;
                judge_type(self.profile, &header.kinds, index)?;
                Awaited::Value(index)
            }
            Awaited::Value(index) => {
                header.values[index] = value;
                metric_or_count(header, index + 1)
            }
            Awaited::EntryCount => {
                judge_entry_count(MOST_ENTRIES, value)?;
                header.entries = value;
                records_to_come(value)
            }
            Awaited::Record(_) | Awaited::Counted(_) | Awaited::Behind => unreachable!("no number of the header"),
        };
        Ok(())
    }
}

/// A number that has no rule but its form.
fn next(place: &mut u64, value: u64, awaited: Awaited) -> Awaited {
    *place = value;
    awaited
}

/// The type of the metric with this index, or the entry count where there is none.
fn metric_or_count(header: &Header, index: usize) -> Awaited {
    if (index as u64) < header.metrics {
        Awaited::Kind(index)
    } else {
        Awaited::EntryCount
    }
}

pub fn records_to_come(left: u64) -> Awaited {
    match left {
        0 => Awaited::Behind,
        left => Awaited::Record(left),
    }
}
