//! Document 02, No. 13, "The week's totals": one page over a file of reports.

use crate::numbers::high_first;
use crate::profile::RECORD;
use crate::refusals::{ENDS, TOO_LONG};
use crate::report::{read_entry, read_report};
use std::collections::BTreeMap;
use std::io::{self, Read, Write};

/// "a file of profile 1 reports"
pub const PROFILE: u64 = 1;
/// "each after a four-byte length with the high byte first"
const LENGTH: usize = 4;
/// "20 for a report longer than 8,192 bytes, which is skipped"
pub const LONGEST: u64 = 8192;
/// "one that would pass 2^64 - 1 stays there"
const MOST: u128 = u64::MAX as u128;
/// "0 received, 1 late, 2 not received, 3 partial"
const STATUSES: [&str; 4] = ["received", "late", "not received", "partial"];
/// How many sums a host sees.
pub const PLACES: usize = 29;

/// All sums are exact; only the page stops at 2^64 - 1.
#[derive(Default)]
pub struct Week {
    accepted: u128,
    refused: BTreeMap<u64, u128>,
    total: u128,
    received: u128,
    late: u128,
    lost: u128,
    statuses: [u128; 4],
}

impl Week {
    pub fn refuse(&mut self, number: u64) {
        *self.refused.entry(number).or_default() += 1;
    }

    /// One report, of at most 8,192 bytes.
    pub fn add(&mut self, report: &[u8]) {
        let (header, start) = match read_report(PROFILE, report) {
            Ok(read) => read,
            Err(number) => return self.refuse(number),
        };
        self.accepted += 1;
        self.total += u128::from(header.total);
        self.received += u128::from(header.received);
        self.late += u128::from(header.late);
        self.lost += u128::from(header.lost);
        for index in 0..report[start..].len() / RECORD {
            let entry = read_entry(PROFILE, &report[start..], index).expect("an accepted report has good entries");
            self.statuses[entry.status as usize] += 1;
        }
    }

    /// Every sum in its place: reports accepted, reports refused with 1 to 20, the four totals, the entries by status.
    pub fn places(&self) -> [u128; PLACES] {
        let mut places = [0; PLACES];
        places[0] = self.accepted;
        for (number, count) in &self.refused {
            places[*number as usize] = *count;
        }
        places[21..25].copy_from_slice(&[self.total, self.received, self.late, self.lost]);
        places[25..].copy_from_slice(&self.statuses);
        places
    }

    /// "It prints reports accepted, reports refused for each number that occurs, rising, the four summary totals and the
    /// entry count by status."
    fn page(&self) -> String {
        let mut page = line("accepted", self.accepted);
        for (number, count) in &self.refused {
            page += &line(&format!("refused {number}"), *count);
        }
        page += &line("total", self.total);
        page += &line("received", self.received);
        page += &line("late", self.late);
        page += &line("lost", self.lost);
        for (name, count) in STATUSES.iter().zip(self.statuses) {
            page += &line(&format!("entries {name}"), count);
        }
        page
    }
}

/// "one that would pass 2^64 - 1 stays there and is marked 'full'"; exactly 2^64 - 1 is not full.
fn line(name: &str, sum: u128) -> String {
    let mark = if sum > MOST { " full" } else { "" };
    format!("{name} {}{mark}\n", sum.min(MOST))
}

/// Reads the file to its end: its totals, or nothing where it ends early.
fn read_week(mut input: impl Read) -> io::Result<Option<Week>> {
    let mut week = Week::default();
    loop {
        let mut length = [0; LENGTH];
        match fill(&mut input, &mut length)? {
            0 => return Ok(Some(week)),
            LENGTH => {}
            _ => return Ok(None),
        }
        let length = high_first(&length);
        if length > LONGEST {
            week.refuse(TOO_LONG);
            if io::copy(&mut input.by_ref().take(length), &mut io::sink())? < length {
                return Ok(None);
            }
            continue;
        }
        let mut report = vec![0; length as usize];
        if fill(&mut input, &mut report)? < report.len() {
            return Ok(None);
        }
        week.add(&report);
    }
}

/// How many bytes there were to fill the buffer with.
fn fill(input: &mut impl Read, buffer: &mut [u8]) -> io::Result<usize> {
    let mut filled = 0;
    while filled < buffer.len() {
        match input.read(&mut buffer[filled..])? {
            0 => break,
            count => filled += count,
        }
    }
    Ok(filled)
}

/// "2 alone for a file that ends early, which ends the run"
pub fn run(input: impl Read, mut output: impl Write) -> io::Result<()> {
    let page = read_week(input)?.map_or_else(|| format!("{ENDS}\n"), |week| week.page());
    output.write_all(page.as_bytes())
}
