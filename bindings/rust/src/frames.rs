//! Numbers on the wire and the three frames. A reader starts at the first byte and gives the rest behind what it read.

use core::ops::RangeInclusive;

use crate::raw;
use crate::refusal::accepted;
use crate::{Counts, Micros, Refusal};

/// Reads the number at the start; longer forms than needed are accepted.
///
/// # Errors
/// [`Refusal::Ends`].
pub fn read_number(bytes: &[u8]) -> Result<(u64, &[u8]), Refusal> {
    let number = unsafe { raw::lumbixet_read_number(bytes.as_ptr(), bytes.len(), 0) };
    accepted(number.result).map(|()| (number.value, &bytes[number.next as usize..]))
}

/// Writes a number at the start in its shortest form, and gives its bytes.
///
/// # Errors
/// [`Refusal::TooLarge`], then [`Refusal::NoRoom`].
pub fn write_number(value: u64, buffer: &mut [u8]) -> Result<&[u8], Refusal> {
    let put = unsafe { raw::lumbixet_put_number(buffer.as_mut_ptr(), buffer.len(), 0, value) };
    accepted(put.result).map(|()| &buffer[..put.next as usize])
}

/// An ACK_FREQUENCY frame.
#[derive(Clone, Copy, Debug, PartialEq, Eq)]
pub struct Frequency {
    /// Its sequence number; the sender counts it up.
    pub sequence: u64,
    /// The ack-eliciting threshold.
    pub threshold: u64,
    /// The requested maximum delay. The reader does not judge it; [`Receiver::threshold`](crate::Receiver::threshold) does.
    pub delay: Micros,
    /// The reordering threshold: 0 never, 1 RFC 9000's rule, above that the draft's.
    pub reordering: u64,
}

impl Frequency {
    /// Reads the frame at the start, and gives what follows it.
    ///
    /// # Errors
    /// [`Refusal::Ends`], [`Refusal::OtherType`].
    pub fn read(bytes: &[u8]) -> Result<(Frequency, &[u8]), Refusal> {
        Frequency::found(unsafe { raw::lumbixet_read_frequency(bytes.as_ptr(), bytes.len()) }, bytes)
    }

    /// Reads the frame of which the host's stack has read the type already: `kind` is that number, and the bytes are those after it.
    ///
    /// # Errors
    /// [`Refusal::OtherType`], [`Refusal::Ends`].
    pub fn read_as(kind: u64, bytes: &[u8]) -> Result<(Frequency, &[u8]), Refusal> {
        Frequency::found(unsafe { raw::lumbixet_read_frequency_as(kind, bytes.as_ptr(), bytes.len()) }, bytes)
    }

    fn found(frame: raw::FrequencyFrame, bytes: &[u8]) -> Result<(Frequency, &[u8]), Refusal> {
        accepted(frame.result)?;
        let raw::FrequencyFrame { sequence, threshold, delay, reordering, used, .. } = frame;
        Ok((Frequency { sequence, threshold, delay: Micros(delay), reordering }, &bytes[used as usize..]))
    }

    /// Writes the frame at the start, and gives its bytes. [`FREQUENCY_ROOM`](crate::FREQUENCY_ROOM) bytes always suffice.
    ///
    /// # Errors
    /// [`Refusal::TooLarge`], then [`Refusal::NoRoom`].
    pub fn write<'a>(&self, buffer: &'a mut [u8]) -> Result<&'a [u8], Refusal> {
        let Frequency { sequence, threshold, delay, reordering } = *self;
        let (start, length) = (buffer.as_mut_ptr(), buffer.len());
        let put = unsafe { raw::lumbixet_put_frequency(start, length, sequence, threshold, delay.0, reordering) };
        accepted(put.result).map(|()| &buffer[..put.next as usize])
    }
}

/// An IMMEDIATE_ACK frame, which is its type alone.
#[derive(Clone, Copy, Debug, PartialEq, Eq)]
pub struct Immediate;

impl Immediate {
    /// Reads the frame at the start, and gives what follows it.
    ///
    /// # Errors
    /// [`Refusal::Ends`], [`Refusal::OtherType`].
    pub fn read(bytes: &[u8]) -> Result<(Immediate, &[u8]), Refusal> {
        let frame = unsafe { raw::lumbixet_read_immediate(bytes.as_ptr(), bytes.len()) };
        accepted(frame.result).map(|()| (Immediate, &bytes[frame.used as usize..]))
    }

    /// Writes the frame at the start, and gives its one byte.
    ///
    /// # Errors
    /// [`Refusal::NoRoom`].
    pub fn write<'a>(&self, buffer: &'a mut [u8]) -> Result<&'a [u8], Refusal> {
        let put = unsafe { raw::lumbixet_put_immediate(buffer.as_mut_ptr(), buffer.len()) };
        accepted(put.result).map(|()| &buffer[..put.next as usize])
    }
}

/// An ACK frame of type 02 or 03 that was read. Its ranges stand in the lent slice.
#[derive(Clone, Copy, Debug, PartialEq, Eq)]
pub struct Ack<'a> {
    /// The largest acknowledged number.
    pub largest: u64,
    /// The delay as on the wire: the exponent that the frame's writer announced decides its unit.
    pub delay: u64,
    /// Smallest and largest of each range, newest range first.
    pub pairs: &'a [u64],
    /// Of type 03, the counts of marks; `None` of type 02.
    pub counts: Option<Counts>,
}

impl<'a> Ack<'a> {
    /// Reads the frame at the start, writes its ranges to the lent slice, and gives what follows the frame.
    /// [`ranges_room`](crate::ranges_room) says how long a slice always suffices.
    ///
    /// # Errors
    /// [`Refusal::Ends`], [`Refusal::OtherType`], [`Refusal::BelowZero`], and after these [`Refusal::NoRoom`].
    pub fn read<'b>(bytes: &'b [u8], ranges: &'a mut [u64]) -> Result<(Ack<'a>, &'b [u8]), Refusal> {
        let (room, lent) = (ranges.len(), ranges.as_mut_ptr());
        let frame = unsafe { raw::lumbixet_read_ack(bytes.as_ptr(), bytes.len(), lent, room) };
        Ack::found(frame, bytes, ranges)
    }

    /// Reads the frame of which the host's stack has read the type already: `kind` is that number, and the bytes are those after it.
    ///
    /// # Errors
    /// [`Refusal::OtherType`], [`Refusal::Ends`], [`Refusal::BelowZero`], and after these [`Refusal::NoRoom`].
    pub fn read_as<'b>(kind: u64, bytes: &'b [u8], ranges: &'a mut [u64]) -> Result<(Ack<'a>, &'b [u8]), Refusal> {
        let (room, lent) = (ranges.len(), ranges.as_mut_ptr());
        let frame = unsafe { raw::lumbixet_read_ack_as(kind, bytes.as_ptr(), bytes.len(), lent, room) };
        Ack::found(frame, bytes, ranges)
    }

    fn found<'b>(frame: raw::AckFrame, bytes: &'b [u8], ranges: &'a [u64]) -> Result<(Ack<'a>, &'b [u8]), Refusal> {
        accepted(frame.result)?;
        let raw::AckFrame { largest, delay, ranges: count, used, counts, ect0, ect1, ce, .. } = frame;
        let pairs = &ranges[..2 * count as usize];
        let counts = (counts != 0).then_some(Counts { ect0, ect1, ce });
        Ok((Ack { largest, delay, pairs, counts }, &bytes[used as usize..]))
    }

    /// The ranges of acknowledged numbers, newest first.
    pub fn ranges(&self) -> impl Iterator<Item = RangeInclusive<u64>> + 'a {
        self.pairs.chunks_exact(2).map(|pair| pair[0]..=pair[1])
    }
}
