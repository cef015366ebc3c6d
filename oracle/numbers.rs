//! Numbers on the wire: document 01, "Numbers on the wire"; RFC 9000 section 16.

use crate::refusals::{ENDS, LONGER_FORM, NO_ROOM, TOO_LARGE};

/// "a number, threshold or time is above 2^62 - 1": the largest that is not.
pub const LARGEST: u64 = (1 << 62) - 1;

/// Refusal 5, for a call's number arguments.
pub fn judge_numbers(numbers: &[u64]) -> Result<(), u64> {
    if numbers.iter().any(|number| *number > LARGEST) {
        return Err(TOO_LARGE);
    }
    Ok(())
}

/// "Largest values are 63; 16,383; 1,073,741,823; 2^62 - 1. Writers use the shortest."
pub fn width(value: u64) -> usize {
    match value {
        0..=63 => 1,
        64..=16_383 => 2,
        16_384..=1_073_741_823 => 4,
        _ => 8,
    }
}

/// A field of fixed length, at most 8 bytes, high byte first.
pub fn high_first(bytes: &[u8]) -> u64 {
    bytes.iter().fold(0, |high, byte| high << 8 | u64::from(*byte))
}

/// A number that was read.
#[derive(Clone, Copy, Debug, PartialEq, Eq)]
pub struct Number {
    pub value: u64,
    /// The place after it.
    pub next: usize,
    /// "The number reader is to say also whether the form was the shortest" (document 02, No. 5).
    pub shortest: bool,
}

/// Reads the number at a place.
pub fn read(bytes: &[u8], at: usize) -> Result<Number, u64> {
    let first = *bytes.get(at).ok_or(ENDS)?;
    // "the top two bits of the first byte give a length of 1, 2, 4 or 8 bytes"
    let length = 1 << (first >> 6);
    let field = bytes.get(at..at + length).ok_or(ENDS)?;
    // "the other bits are the value, high byte first"
    let top_two = u64::from(first & 0xc0) << (8 * (length - 1));
    let value = high_first(field) - top_two;
    Ok(Number { value, next: at + length, shortest: length == width(value) })
}

/// Appends a number, at most 2^62 - 1, in its shortest form.
pub fn append(bytes: &mut Vec<u8>, value: u64) {
    let length = width(value);
    let start = bytes.len();
    bytes.extend_from_slice(&value.to_be_bytes()[8 - length..]);
    bytes[start] |= (length.trailing_zeros() as u8) << 6;
}

/// Writes a number at a place of a lent buffer; gives the place after it. 5, then 9.
pub fn put(buffer: &mut [u8], at: usize, value: u64) -> Result<usize, u64> {
    judge_numbers(&[value])?;
    let mut bytes = Vec::new();
    append(&mut bytes, value);
    put_bytes(buffer, at, &bytes)
}

/// Writes bytes at a place of a lent buffer, all of them or none.
pub fn put_bytes(buffer: &mut [u8], at: usize, bytes: &[u8]) -> Result<usize, u64> {
    let end = at.checked_add(bytes.len()).ok_or(NO_ROOM)?;
    buffer.get_mut(at..end).ok_or(NO_ROOM)?.copy_from_slice(bytes);
    Ok(end)
}

/// Reads field by field, and gives the first fault.
pub struct Fields<'a> {
    pub bytes: &'a [u8],
    /// The place of the next field.
    pub at: usize,
}

impl Fields<'_> {
    /// The next number in any form; whether it was the shortest goes with it.
    fn in_any_form(&mut self) -> Result<Number, u64> {
        let number = read(self.bytes, self.at)?;
        self.at = number.next;
        Ok(number)
    }

    /// "frame fields accept it"
    pub fn number(&mut self) -> Result<u64, u64> {
        Ok(self.in_any_form()?.value)
    }

    /// "Report readers refuse a longer form"; a frame type "not in shortest form" is refused too, with a number of its own.
    pub fn shortest(&mut self, refusal: u64) -> Result<u64, u64> {
        let number = self.in_any_form()?;
        if !number.shortest {
            return Err(refusal);
        }
        Ok(number.value)
    }

    /// A number of a report.
    pub fn report_number(&mut self) -> Result<u64, u64> {
        self.shortest(LONGER_FORM)
    }
}
