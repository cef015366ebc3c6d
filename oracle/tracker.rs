//! Document 02, No. 4: the tracker of object statuses, over the 256 object numbers from a first one.

use crate::numbers::{judge_numbers, LARGEST};
use crate::profile::{Entry, RECORD};
use crate::refusals::{ENTRY, INCONSISTENT, NO_ROOM, OUTSIDE, TOO_LARGE};
use crate::report::{Header, LARGEST_AVERAGE, SMALLEST_AVERAGE};
use std::collections::BTreeMap;

/// "the 256 object numbers from a given first one"
pub const OBJECTS: u64 = 256;
/// "Entry ages stop at the largest four-byte number"
const LARGEST_AGE: u64 = 0xffff_ffff;

/// The statuses of document 01, "An entry".
pub const RECEIVED: u64 = 0;
pub const LATE: u64 = 1;
pub const NOT_RECEIVED: u64 = 2;
pub const PARTIAL: u64 = 3;

/// What is known of an object of which anything is known.
#[derive(Clone, Copy, Debug, PartialEq, Eq)]
pub enum Known {
    /// "the caller's word that an object ended early", and when that came.
    Ended { time: u64 },
    /// "late if its arrival exceeds a known deadline, otherwise received"
    Arrived { time: u64, late: bool },
}

impl Known {
    fn time(&self) -> u64 {
        match *self {
            Known::Ended { time } | Known::Arrived { time, .. } => time,
        }
    }
}

/// An object is kept by its place, its number less the first.
#[derive(Clone, Debug, PartialEq, Eq)]
pub struct Tracker {
    /// The number of the object at place 0.
    pub first: u64,
    /// "an expected interval", in microseconds.
    pub interval: u64,
    /// "First means first by order of calls."
    pub first_arrival: Option<u64>,
    pub objects: BTreeMap<u64, Known>,
}

/// "5 for .. intervals and numbers above 2^62 - 1, the last of the 256 included"
pub fn open(first: u64, interval: u64) -> Result<Tracker, u64> {
    judge_numbers(&[first, interval])?;
    judge_numbers(&[first + (OBJECTS - 1)])?;
    Ok(Tracker { first, interval, first_arrival: None, objects: BTreeMap::new() })
}

impl Tracker {
    /// "arrivals with their times and each object's playback deadline or none". A refused call changes nothing.
    pub fn arrived(&mut self, object: u64, time: u64, deadline: Option<u64>) -> Result<(), u64> {
        let place = self.judge(&[object, time, deadline.unwrap_or(0)], object)?;
        // "An arrival after an early end or a loss counts. A second arrival .. is ignored."
        if !matches!(self.objects.get(&place), Some(Known::Arrived { .. })) {
            let late = deadline.map_or(false, |deadline| time > deadline);
            self.objects.insert(place, Known::Arrived { time, late });
            self.first_arrival.get_or_insert(place);
        }
        Ok(())
    }

    /// "a second early end, or one after an arrival, is ignored"
    pub fn ended_early(&mut self, object: u64, time: u64) -> Result<(), u64> {
        let place = self.judge(&[object, time], object)?;
        self.objects.entry(place).or_insert(Known::Ended { time });
        Ok(())
    }

    /// "1 for a record whose parts disagree or break 5", "5 for times, intervals and numbers above 2^62 - 1", "then 17 for
    /// an object outside the 256". Gives the object's place.
    fn judge(&self, numbers: &[u64], object: u64) -> Result<u64, u64> {
        self.judge_record()?;
        judge_numbers(numbers)?;
        object.checked_sub(self.first).filter(|place| *place < OBJECTS).ok_or(OUTSIDE)
    }

    fn judge_record(&self) -> Result<(), u64> {
        if !self.consistent() {
            return Err(INCONSISTENT);
        }
        Ok(())
    }

    /// No number or time breaks 5, and a first arrival is named exactly where an object arrived, and did arrive.
    pub fn consistent(&self) -> bool {
        let last = self.first.saturating_add(OBJECTS - 1);
        let times_obey = self.objects.values().all(|known| known.time() <= LARGEST);
        let places_exist = self.objects.keys().all(|place| *place < OBJECTS);
        let first_agrees = match self.first_arrival {
            None => self.arrivals().next().is_none(),
            Some(place) => self.arrival_of(place).is_some(),
        };
        last <= LARGEST && self.interval <= LARGEST && times_obey && places_exist && first_agrees
    }

    fn arrival_of(&self, place: u64) -> Option<u64> {
        match self.objects.get(&place) {
            Some(Known::Arrived { time, .. }) => Some(*time),
            _ => None,
        }
    }

    /// Place and time of each object that arrived, by place.
    fn arrivals(&self) -> impl DoubleEndedIterator<Item = (u64, u64)> + '_ {
        self.objects.keys().filter_map(|place| self.arrival_of(*place).map(|time| (*place, time)))
    }

    /// The status of an object at a time, "otherwise it has no status and makes no entry".
    fn status(&self, place: u64, now: u64) -> Option<u64> {
        match self.objects.get(&place) {
            Some(Known::Arrived { late: true, .. }) => Some(LATE),
            Some(Known::Arrived { .. }) => Some(RECEIVED),
            // "One that has not arrived is partial if it ended early"
            Some(Known::Ended { .. }) => Some(PARTIAL),
            // "otherwise not received once a larger number has arrived, or once more than twice the interval has passed after
            // its expected arrival"
            None => {
                let larger_arrived = self.arrivals().next_back().map_or(false, |(largest, _)| largest > place);
                let twice = 2 * u128::from(self.interval);
                let overdue = self.expected(place).map_or(false, |expected| u128::from(now) > expected + twice);
                Some(NOT_RECEIVED).filter(|_| larger_arrived || overdue)
            }
        }
    }

    /// "The expected arrival of a number above that of the first arrival is the first arrival's time plus the interval times
    /// the difference; before any arrival there is none."
    fn expected(&self, place: u64) -> Option<u128> {
        let first = self.first_arrival.filter(|first| *first < place)?;
        let difference = u128::from(place - first);
        Some(u128::from(self.arrival_of(first)?) + u128::from(self.interval) * difference)
    }

    /// "Entry ages .. are 0 where the clock went back; an object that ended early has its age from the time of that word."
    fn age(&self, place: u64, now: u64) -> u64 {
        self.objects.get(&place).map_or(0, |known| now.saturating_sub(known.time()).min(LARGEST_AGE))
    }

    /// "over all objects with a status"
    fn entries(&self, now: u64) -> Vec<Entry> {
        let entry = |place| {
            self.status(place, now).map(|status| Entry {
                group: 0,
                object: self.first + place,
                status,
                age: self.age(place, now),
            })
        };
        (0..OBJECTS).filter_map(entry).collect()
    }

    /// "the sum of gaps less the interval each, divided by the number of gaps, rounded toward zero; 0 for fewer than two
    /// arrivals", "by arrival time"
    fn average(&self) -> Result<i64, u64> {
        let mut times: Vec<u64> = self.arrivals().map(|(_, time)| time).collect();
        times.sort_unstable();
        let less_interval = |pair: &[u64]| i128::from(pair[1] - pair[0]) - i128::from(self.interval);
        let gaps: Vec<i128> = times.windows(2).map(less_interval).collect();
        if gaps.is_empty() {
            return Ok(0);
        }
        // division of whole numbers rounds toward zero
        let average = gaps.iter().sum::<i128>() / gaps.len() as i128;
        let range = i128::from(SMALLEST_AVERAGE)..=i128::from(LARGEST_AVERAGE);
        if !range.contains(&average) {
            return Err(TOO_LARGE);
        }
        Ok(average as i64)
    }

    /// "It makes the entries and the summary for a given time and report interval". "when entries and summary are made, 5 for
    /// an average outside the signed range, then 9": all entries fit, or none is written.
    pub fn report(&self, now: u64, interval: u64, buffer: &mut [u8]) -> Result<Header, u64> {
        self.judge_record()?;
        judge_numbers(&[now, interval])?;
        let average = self.average()?;
        let entries = self.entries(now);
        let room = buffer.get_mut(..RECORD * entries.len()).ok_or(NO_ROOM)?;
        for (record, entry) in room.chunks_mut(RECORD).zip(&entries) {
            record.copy_from_slice(&record_of(entry)?);
        }
        let with = |status| entries.iter().filter(|entry| entry.status == status).count() as u64;
        let (received, late, lost) = (with(RECEIVED), with(LATE), with(NOT_RECEIVED) + with(PARTIAL));
        let count = entries.len() as u64;
        Ok(Header { timestamp: now, interval, total: count, received, late, lost, average, entries: count, ..Header::default() })
    }
}

/// A record of profile 1: "object number (8 bytes, high first ..), status (1 byte ..), three zero bytes, age in microseconds (4 bytes ..)"
fn record_of(entry: &Entry) -> Result<[u8; RECORD], u64> {
    let age = u32::try_from(entry.age).map_err(|_| ENTRY)?;
    let mut record = [0; RECORD];
    record[..8].copy_from_slice(&entry.object.to_be_bytes());
    record[8] = entry.status as u8;
    record[12..].copy_from_slice(&age.to_be_bytes());
    Ok(record)
}
