//! What include/lumbixet_pieces.h declares; that header says what each means.

use super::{Header, Report};

/// `lumbixet_pieces`: a report as far as it has come. What means nothing in a stage is not looked at.
#[repr(C)]
#[derive(Clone, Copy, Debug, Default, PartialEq, Eq)]
pub struct Pieces {
    /// The report's profile, 1 or 2.
    pub profile: u64,
    /// 0 numbers, 1 entries, 2 counting behind a bad entry, 3 refused, 4 ended and accepted.
    pub stage: u64,
    /// Entries that are not whole yet; when counting, entry bytes still to come; when refused, the number.
    pub left: u64,
    /// The group of the last entry, 0 before the first.
    pub group: u64,
    /// One past its object's number, 0 before the first.
    pub above: u64,
    /// How many of the header's numbers have come.
    pub come: u64,
    /// How many bytes of an unfinished number or entry have come.
    pub carried: u64,
    /// The header's numbers in the report's order.
    pub numbers: [u64; 25],
    /// The bytes of what is unfinished, one to a word.
    pub bytes: [u64; 24],
}

/// `lumbixet_pieces_taken`: what a part brings.
#[repr(C)]
#[derive(Clone, Copy, Debug, Default, PartialEq, Eq)]
pub struct PiecesTaken {
    pub result: u64,
    pub taken: u64,
    pub records: u64,
    pub whole: u64,
    pub header: Header,
}

extern "C" {
    pub fn lumbixet_pieces_open(pieces: *mut Pieces, profile: u64) -> u64;
    pub fn lumbixet_pieces_take(pieces: *mut Pieces, part: *const u8, length: usize, buffer: *mut u8, room: usize)
        -> PiecesTaken;
    pub fn lumbixet_pieces_end(pieces: *mut Pieces) -> Report;
}
