//! The totals of a week's feedback reports, and their page.

use crate::raw;
use crate::refusal::accepted;
use crate::{Refusal, Status};

/// Bytes that hold every page.
pub const PAGE_ROOM: usize = 1363;

/// A piece of at least so many bytes holds a whole report with its length, unless that is too long and is skipped.
pub const PIECE_LEAST: usize = 8196;

// Where each sum stands; reports refused with a number stand at that number.
const ACCEPTED: usize = 0;
const LAST_REFUSED: u64 = 20;
const TOTAL: usize = 21;
const RECEIVED: usize = 22;
const LATE: usize = 23;
const LOST: usize = 24;
const ENTRIES: usize = 25;

/// The totals so far.
#[derive(Clone, Copy, Debug, PartialEq, Eq)]
pub struct Week {
    record: raw::WeekTotals,
}

/// A sum, which stays at 2^64 - 1.
#[derive(Clone, Copy, Debug, Default, PartialEq, Eq)]
pub struct Sum {
    /// The sum, or 2^64 - 1 where it would pass that.
    pub value: u64,
    /// Whether it would pass 2^64 - 1.
    pub full: bool,
}

impl Week {
    /// The totals before the first report.
    #[must_use]
    pub fn open() -> Week {
        Week { record: unsafe { raw::lumbixet_totals_open() } }
    }

    /// Adds one report. The answer is what the report was counted as, and no refusal of this call: the totals change with an `Err` too.
    ///
    /// # Errors
    /// Those of [`Report::read`](crate::Report::read), and [`Refusal::TooLong`] above 8,192 bytes.
    pub fn add(&mut self, report: &[u8]) -> Result<(), Refusal> {
        let added = unsafe { raw::lumbixet_totals_add(self.record, report.as_ptr(), report.len()) };
        self.record = added.next;
        accepted(added.counted_as)
    }

    /// Adds the reports of a piece of a file, each after its length, four bytes with the high byte first. Answers how many bytes
    /// were taken; what follows them is no whole report yet, and comes again at the start of the next piece.
    #[must_use]
    pub fn piece(&mut self, piece: &[u8]) -> usize {
        let taken = unsafe { raw::lumbixet_totals_piece(self.record, piece.as_ptr(), piece.len()) };
        self.record = taken.next;
        taken.used as usize
    }

    /// Writes the page. `left` is how many bytes of the file are left at its end, 0 where reports were added one by one: where
    /// some are, or some were still to be skipped, the file ended early and the page is the line `2` alone.
    ///
    /// # Errors
    /// [`Refusal::NoRoom`] where the page does not fit, and nothing is written; [`PAGE_ROOM`] bytes always suffice.
    pub fn page<'a>(&self, left: usize, buffer: &'a mut [u8]) -> Result<&'a [u8], Refusal> {
        let page = unsafe { raw::lumbixet_totals_page(self.record, left, buffer.as_mut_ptr(), buffer.len()) };
        accepted(page.result)?;
        Ok(&buffer[..page.length as usize])
    }

    fn sum(&self, place: usize) -> Sum {
        Sum { value: self.record.sums[place], full: self.record.full[place] != 0 }
    }

    /// Reports accepted.
    #[must_use]
    pub fn accepted(&self) -> Sum {
        self.sum(ACCEPTED)
    }

    /// Reports refused with the number; 0 of a number that no report is given.
    #[must_use]
    pub fn refused(&self, refusal: Refusal) -> Sum {
        match refusal.number() {
            number @ 1..=LAST_REFUSED => self.sum(number as usize),
            _ => Sum::default(),
        }
    }

    /// The refusals that occurred, rising by number, and how often each did.
    pub fn refusals(&self) -> impl Iterator<Item = (Refusal, Sum)> + '_ {
        let all = (1..=LAST_REFUSED).map(Refusal::from_number).map(move |refusal| (refusal, self.refused(refusal)));
        all.filter(|(_, sum)| sum.value > 0)
    }

    /// The sum of the accepted reports' totals.
    #[must_use]
    pub fn total(&self) -> Sum {
        self.sum(TOTAL)
    }

    /// Of the total, received in time.
    #[must_use]
    pub fn received(&self) -> Sum {
        self.sum(RECEIVED)
    }

    /// Of the total, received late.
    #[must_use]
    pub fn late(&self) -> Sum {
        self.sum(LATE)
    }

    /// Of the total, lost.
    #[must_use]
    pub fn lost(&self) -> Sum {
        self.sum(LOST)
    }

    /// Entries of the accepted reports with the status.
    #[must_use]
    pub fn entries(&self, status: Status) -> Sum {
        self.sum(ENTRIES + status as usize)
    }

    /// The record, to keep or to look into.
    #[must_use]
    pub fn record(&self) -> &raw::WeekTotals {
        &self.record
    }

    /// Totals that go on from a record that was kept.
    #[must_use]
    pub fn from_record(record: raw::WeekTotals) -> Week {
        Week { record }
    }
}
