//! The sums of files of reports, as pages, pictures and sentences show them.

use lumbixet::{Profile, Report, Status as Became, Sum, Week, PAGE_ROOM};

use crate::input::{Input, Trouble};
use crate::text::grouped;

/// How many bytes are read at most at a time; the longest report that is read has room in it.
const PIECE: usize = 1 << 16;

/// "2 alone for a file that ends early"
const EARLY: &[u8] = b"2\n";

/// "20 for a report longer than 8,192 bytes, which is skipped"
const LONGEST: usize = 8_192;

pub const STATUSES: [(Became, &str); 4] =
    [(Became::Received, "received"), (Became::Late, "late"), (Became::NotReceived, "not received"), (Became::Partial, "partial")];

/// What a file, or several in a row, come to.
#[derive(Clone)]
pub struct Sums {
    pub week: Week,
    /// Whether a file ended early: then nothing is counted.
    pub early: bool,
    /// The smallest and the largest timestamp of an accepted report.
    pub span: Option<(u64, u64)>,
}

impl Sums {
    pub fn new() -> Sums {
        Sums { week: Week::open(), early: false, span: None }
    }

    /// The page as the proved program prints it.
    pub fn page(&self, buffer: &mut [u8; PAGE_ROOM]) -> Vec<u8> {
        if self.early {
            return EARLY.to_vec();
        }
        // there is room for every page
        self.week.page(0, buffer).unwrap_or_default().to_vec()
    }

    /// Whether anything was refused.
    pub fn refused(&self) -> bool {
        self.early || self.week.refusals().next().is_some()
    }

    /// The objects: all of them, and what became of them.
    pub fn objects(&self) -> [(&'static str, Sum); 4] {
        let week = &self.week;
        [("total", week.total()), ("received", week.received()), ("late", week.late()), ("lost", week.lost())]
    }

    pub fn entries(&self) -> [(&'static str, Sum); 4] {
        STATUSES.map(|(status, name)| (name, self.week.entries(status)))
    }

    /// How many reports were refused in all.
    pub fn refused_in_all(&self) -> Sum {
        sum_of(self.week.refusals().map(|(_, sum)| sum))
    }
}

/// The sum of sums, which stays at the most as they do.
pub fn sum_of(sums: impl Iterator<Item = Sum>) -> Sum {
    sums.fold(Sum::default(), |all, one| match all.value.checked_add(one.value) {
        Some(value) => Sum { value, full: all.full || one.full },
        None => Sum { value: u64::MAX, full: true },
    })
}

/// A sum with commas; one that is full is at least that.
pub fn shown(sum: Sum) -> String {
    format!("{}{}", grouped(sum.value), if sum.full { " or more" } else { "" })
}

/// Reads a file to its end into each of the sums, which all stand between two reports before it.
pub fn read(input: &mut Input, into: &mut [&mut Sums], dates: bool) -> Result<(), Trouble> {
    let mut piece = vec![0; PIECE];
    let (mut left, mut skip) = (0, 0);
    loop {
        let count = input.read(&mut piece[left..]).map_err(Trouble::Input)?;
        if count == 0 {
            break;
        }
        let end = left + count;
        let mut used = 0;
        for sums in into.iter_mut() {
            used = sums.week.piece(&piece[..end]);
        }
        if dates {
            skip = timestamps(&piece[..used], skip, |time| {
                for sums in into.iter_mut() {
                    let (first, last) = sums.span.unwrap_or((time, time));
                    sums.span = Some((first.min(time), last.max(time)));
                }
            });
        }
        piece.copy_within(used..end, 0);
        left = end - used;
    }
    for sums in into {
        // the page says whether the file ended inside a report or while one was skipped
        sums.early |= sums.week.page(left, &mut [0; PAGE_ROOM]).map_or(false, |page| page == EARLY);
    }
    Ok(())
}

/// The timestamps of the accepted reports among bytes that hold whole ones, behind so many that are skipped. Answers how many are
/// still to be skipped.
fn timestamps(bytes: &[u8], skip: usize, mut take: impl FnMut(u64)) -> usize {
    let mut at = skip;
    while let Some([a, b, c, d]) = bytes.get(at..at + 4) {
        let length = u32::from_be_bytes([*a, *b, *c, *d]) as usize;
        if length <= LONGEST {
            let report = bytes.get(at + 4..at + 4 + length).map(|report| Report::read(Profile::One, report));
            if let Some(Ok(report)) = report {
                take(report.header.timestamp.0);
            }
        }
        at += 4 + length;
    }
    at.saturating_sub(bytes.len())
}
