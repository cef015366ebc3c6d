//! The feedback report in pieces: read as its bytes come off a stream.

use crate::raw;
use crate::refusal::accepted;
use crate::{Entries, Header, Profile, Refusal};

/// A report whose bytes come over several reads. It holds at most one unfinished number or entry, and no other byte of the report.
/// However the report is cut, header, entries and refusal are those of [`Report::read`](crate::Report::read).
///
/// ```
/// use lumbixet::{Pieces, Profile};
/// # fn main() -> Result<(), lumbixet::Refusal> {
/// let numbers = [0, 0, 1, 1, 0, 0, 0, 0, 1]; // one object, received; one entry
/// let entry = [0, 0, 0, 0, 0, 0, 0, 7, 0, 0, 0, 0, 0, 0, 0, 9];
/// let (mut pieces, mut room) = (Pieces::open(Profile::One), [0; 16]);
/// for read in [&numbers[..5], &numbers[5..], &entry[..3], &entry[3..]] {
///     let taken = pieces.take(read, &mut room);
///     assert_eq!(taken.bytes, read.len()); // else the rest comes again
///     taken.entries.iter().for_each(|entry| assert_eq!((entry.object, entry.age), (7, 9)));
/// }
/// assert_eq!(pieces.end()?.received, 1);
/// # Ok(())
/// # }
/// ```
#[derive(Clone, Copy, Debug, PartialEq, Eq)]
pub struct Pieces {
    record: raw::Pieces,
}

/// What a part of a report brings.
#[derive(Clone, Copy, Debug, PartialEq, Eq)]
#[must_use]
pub struct Taken<'a> {
    /// How many bytes of the part were taken. The rest is handed in again once the entries were read.
    pub bytes: usize,
    /// The entries that became whole, in the room that was lent. They stay also where the report is refused.
    pub entries: Entries<'a>,
    /// The header, once it is whole and while nothing is refused.
    pub header: Option<Header>,
    /// Why the report is refused, where it is; later calls say it again. [`Refusal::Inconsistent`] and [`Refusal::NoRoom`]
    /// alone speak of this call, and took nothing.
    pub refusal: Option<Refusal>,
}

impl Pieces {
    /// Opens the reader for a report of a profile.
    #[must_use]
    pub fn open(profile: Profile) -> Pieces {
        let mut record = raw::Pieces::default();
        // every profile that has a name is accepted
        unsafe { raw::lumbixet_pieces_open(&mut record, profile.number()) };
        Pieces { record }
    }

    /// Takes the next part, which may be empty. Good entries that became whole come back in the room; when no further one has
    /// room there, the rest of the part is not taken. [`Profile::record_size`] bytes of room suffice.
    ///
    /// The refusal is [`Refusal::Inconsistent`], [`Refusal::NoRoom`], or one that stands: [`Refusal::LongerForm`],
    /// [`Refusal::Sum`] and [`Refusal::CountOrType`] with the last byte of the number that is wrong, [`Refusal::Entry`] with the
    /// last byte of all entries, [`Refusal::BytesBehind`] with the first byte too many.
    pub fn take<'a>(&mut self, part: &[u8], room: &'a mut [u8]) -> Taken<'a> {
        let (start, length) = (room.as_mut_ptr(), room.len());
        let taken = unsafe { raw::lumbixet_pieces_take(&mut self.record, part.as_ptr(), part.len(), start, length) };
        let profile = Profile::from_number(self.record.profile).unwrap_or_default();
        Taken {
            bytes: taken.taken as usize,
            entries: Entries::of(profile, &room[..taken.records as usize * profile.record_size()]),
            header: (taken.whole != 0).then(|| Header::from_raw(&taken.header)),
            refusal: accepted(taken.result).err(),
        }
    }

    /// Says that the report has ended. The answer stands: later calls give it again and take nothing.
    ///
    /// # Errors
    /// [`Refusal::Inconsistent`], the refusal that stands, or [`Refusal::Ends`] where the report is not whole.
    pub fn end(&mut self) -> Result<Header, Refusal> {
        let report = unsafe { raw::lumbixet_pieces_end(&mut self.record) };
        accepted(report.result)?;
        Ok(Header::from_raw(&report.header))
    }

    /// The record, to keep or to look into.
    #[must_use]
    pub fn record(&self) -> &raw::Pieces {
        &self.record
    }

    /// A reader that goes on from a record that was kept.
    #[must_use]
    pub fn from_record(record: raw::Pieces) -> Pieces {
        Pieces { record }
    }
}
