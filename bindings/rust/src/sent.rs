//! The sending side's loss list: what became of each packet number that was sent.

use crate::raw;
use crate::refusal::accepted;
use crate::Refusal;

/// So many numbers are held, and lists of so many always suffice.
pub const HELD: usize = 1024;

/// A number is lost when one that lies so far above it is acknowledged (RFC 9002, section 6.1.1).
pub const PACKET_THRESHOLD: u64 = 3;

/// What became of the packet numbers that were sent, from 0 on: up to 1,024 in a row, each outstanding, acknowledged or lost,
/// and of older ones how many were in each state. A refused call leaves it as it was.
///
/// ```
/// use lumbixet::{Losses, HELD};
/// # fn main() -> Result<(), lumbixet::Refusal> {
/// let mut losses = Losses::open();
/// for number in 0..6 {
///     assert_eq!(losses.send()?, number);
/// }
/// let (mut acknowledged, mut lost) = ([0; HELD], [0; HELD]);
/// let (changes, _) = losses.heard(&[0x02, 5, 0, 1, 0, 2, 1], &mut acknowledged, &mut lost)?; // 5, and 0 to 1
/// assert_eq!((changes.acknowledged, changes.lost), (&[0, 1, 5][..], &[2][..])); // 3 and 4 may be out of order
/// assert_eq!(losses.states().outstanding, 2);
/// # Ok(())
/// # }
/// ```
#[derive(Clone, Debug, PartialEq, Eq)]
pub struct Losses {
    record: raw::Losses,
}

/// What an ACK frame changed: both lists rise, and a number stands in them once.
#[derive(Clone, Copy, Debug, PartialEq, Eq)]
#[must_use]
pub struct Changes<'a> {
    /// Numbers that became acknowledged; some of them may have been listed as lost before.
    pub acknowledged: &'a [u64],
    /// Numbers that became lost.
    pub lost: &'a [u64],
}

/// How many of the numbers sent are in each state, the forgotten ones too: together they are as many as were sent.
#[derive(Clone, Copy, Debug, Default, PartialEq, Eq)]
pub struct States {
    /// Neither acknowledged nor lost yet.
    pub outstanding: u64,
    /// Acknowledged.
    pub acknowledged: u64,
    /// Lost, and not acknowledged later.
    pub lost: u64,
}

impl Losses {
    /// Opens a record: nothing was sent.
    #[must_use]
    pub fn open() -> Losses {
        let mut record = raw::Losses::default();
        unsafe { raw::lumbixet_losses_open(&mut record) };
        Losses { record }
    }

    /// A packet is sent: gives its number. When 1,024 are held, the oldest is forgotten.
    ///
    /// # Errors
    /// [`Refusal::Inconsistent`]; [`Refusal::TooLarge`] where number 2^62 - 1 was sent; [`Refusal::NoRoom`] where 1,024 are
    /// held and the oldest is outstanding.
    pub fn send(&mut self) -> Result<u64, Refusal> {
        let sent = unsafe { raw::lumbixet_losses_send(&mut self.record) };
        accepted(sent.result).map(|()| sent.number)
    }

    /// Hears the ACK frame at the start, of type 02 or 03, and gives what it changed and what follows it. [`HELD`] numbers
    /// always suffice for each list.
    ///
    /// # Errors
    /// [`Refusal::Inconsistent`]; [`Refusal::Ends`], [`Refusal::OtherType`], [`Refusal::BelowZero`]; [`Refusal::NeverSent`];
    /// then [`Refusal::NoRoom`] where either list is too short.
    pub fn heard<'a, 'b>(
        &mut self,
        frame: &'b [u8],
        acknowledged: &'a mut [u64],
        lost: &'a mut [u64],
    ) -> Result<(Changes<'a>, &'b [u8]), Refusal> {
        let (first, first_room) = (acknowledged.as_mut_ptr(), acknowledged.len());
        let (second, second_room) = (lost.as_mut_ptr(), lost.len());
        let (bytes, length) = (frame.as_ptr(), frame.len());
        let heard =
            unsafe { raw::lumbixet_losses_heard(&mut self.record, bytes, length, first, first_room, second, second_room) };
        accepted(heard.result)?;
        let acknowledged = &acknowledged[..heard.acknowledged as usize];
        Ok((Changes { acknowledged, lost: &lost[..heard.lost as usize] }, &frame[heard.length as usize..]))
    }

    /// How many were sent: the next packet's number.
    #[must_use]
    pub fn sent(&self) -> u64 {
        self.record.next
    }

    /// How many of the numbers sent are outstanding, acknowledged and lost.
    #[must_use]
    pub fn states(&self) -> States {
        let marks = |words: &[u64; 16]| words.iter().map(|word| u64::from(word.count_ones())).sum::<u64>();
        let raw::Losses { acknowledged_before, lost_before, next, .. } = self.record;
        let acknowledged = acknowledged_before.wrapping_add(marks(&self.record.acknowledged));
        let lost = lost_before.wrapping_add(marks(&self.record.lost));
        // a record that was made up may hold any numbers
        States { outstanding: next.wrapping_sub(acknowledged).wrapping_sub(lost), acknowledged, lost }
    }

    /// The record itself, to log it or to keep it.
    #[must_use]
    pub fn record(&self) -> &raw::Losses {
        &self.record
    }

    /// A loss list over a record that was kept; any record may be given, and one that is not consistent is refused with
    /// [`Refusal::Inconsistent`] by the next call.
    #[must_use]
    pub fn from_record(record: raw::Losses) -> Losses {
        Losses { record }
    }
}

/// As [`Losses::open`].
impl Default for Losses {
    fn default() -> Losses {
        Losses::open()
    }
}
