//! The record, the answers and the calls of include/lumbixet_sent.h; raw.rs hands them on.

/// `lumbixet_losses`: what became of the numbers sent. Number n has bit n % 64 of word n / 64 % 16.
#[repr(C)]
#[derive(Clone, Copy, Debug, Default, PartialEq, Eq)]
pub struct Losses {
    /// Which of the held numbers are acknowledged.
    pub acknowledged: [u64; 16],
    /// Which of them are lost.
    pub lost: [u64; 16],
    /// The next number to be sent.
    pub next: u64,
    /// How many of the forgotten numbers are acknowledged.
    pub acknowledged_before: u64,
    /// How many of the forgotten numbers are lost.
    pub lost_before: u64,
    /// The end of the largest number that was ever acknowledged.
    pub end: u64,
}

/// `lumbixet_sent`: the number of a packet that is sent.
#[repr(C)]
#[derive(Clone, Copy, Debug, Default, PartialEq, Eq)]
pub struct SentNumber {
    pub result: u64,
    pub number: u64,
}

/// `lumbixet_heard`: the length of an ACK frame, and how many numbers it added to each list.
#[repr(C)]
#[derive(Clone, Copy, Debug, Default, PartialEq, Eq)]
pub struct HeardAck {
    pub result: u64,
    pub length: u64,
    pub acknowledged: u64,
    pub lost: u64,
}

#[link(name = "lumbixet", kind = "static")]
extern "C" {
    pub fn lumbixet_losses_open(losses: *mut Losses);
    pub fn lumbixet_losses_send(losses: *mut Losses) -> SentNumber;
    pub fn lumbixet_losses_heard(
        losses: *mut Losses,
        frame: *const u8,
        length: usize,
        acknowledged: *mut u64,
        acknowledged_length: usize,
        lost: *mut u64,
        lost_length: usize,
    ) -> HeardAck;
}
