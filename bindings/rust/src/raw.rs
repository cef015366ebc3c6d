//! The calls and records of liblumbixet.a as include/lumbixet.h declares them; that header says what each means.
//! The second implementation (oracle) is held against the archive through this same file.
#![allow(missing_docs)] // the C header says what each field is

#[path = "raw_pieces.rs"]
mod pieces;
pub use pieces::*;

#[path = "raw_sent.rs"]
mod sent;
pub use sent::*;

/// `lumbixet_receiver`: what may be absent is kept as an end, one past the number, with 0 for none.
#[repr(C)]
#[derive(Clone, Copy, Debug, Default, PartialEq, Eq)]
pub struct Receiver {
    /// Which of the last 1,024 numbers were received: bit 1023 is the largest.
    pub window: [u64; 16],
    /// The end of the largest received number.
    pub end: u64,
    /// When that arrived, in microseconds.
    pub arrived: u64,
    /// The floor that confirmations raised: smaller numbers are reported no more.
    pub confirmed: u64,
    /// Ack-eliciting packets since the last written ACK.
    pub pending_count: u64,
    /// The end of the largest of their numbers.
    pub pending_end: u64,
    /// When the first of them arrived, in microseconds.
    pub pending_first: u64,
    /// The ack-eliciting threshold in force.
    pub threshold: u64,
    /// The reordering threshold in force.
    pub reordering: u64,
    /// The delay in force, in microseconds.
    pub delay: u64,
    /// The end of the largest ACK_FREQUENCY sequence processed.
    pub sequence: u64,
    /// The own maximum delay, in milliseconds.
    pub maximum: u64,
    /// The own minimum delay, in microseconds.
    pub minimum: u64,
    /// The end of the largest acknowledged number.
    pub acknowledged: u64,
    /// The end of the highest ack-eliciting number.
    pub highest: u64,
    /// Not 0 exactly where the last accepted packet had the CE mark.
    pub ce: u64,
    /// Why an acknowledgment is due.
    pub cause: u64,
    /// Accepted packets that were marked ECT(0); this and the next three stay at 2^62 - 1.
    pub total_ect0: u64,
    /// Accepted packets that were marked ECT(1).
    pub total_ect1: u64,
    /// Accepted packets that were marked CE.
    pub total_ce: u64,
    /// Accepted packets without a mark.
    pub total_unmarked: u64,
}

/// `lumbixet_answer`: a call's result and the next record.
#[repr(C)]
#[derive(Clone, Copy, Debug, PartialEq, Eq)]
pub struct Answer {
    pub result: u64,
    pub next: Receiver,
}

/// `lumbixet_wrote`: what the write call answers.
#[repr(C)]
#[derive(Clone, Copy, Debug, PartialEq, Eq)]
pub struct Wrote {
    pub result: u64,
    pub length: u64,
    pub next: Receiver,
}

/// `lumbixet_wrote_lent`: what the write call answers where the record is lent.
#[repr(C)]
#[derive(Clone, Copy, Debug, PartialEq, Eq)]
pub struct WroteLent {
    pub result: u64,
    pub length: u64,
}

/// `lumbixet_number`: a number that was read, the place after it, and 1 where its form was the shortest.
#[repr(C)]
#[derive(Clone, Copy, Debug, Default, PartialEq, Eq)]
pub struct Number {
    pub result: u64,
    pub value: u64,
    pub next: u64,
    pub shortest: u64,
}

/// `lumbixet_put`: the place after what was written.
#[repr(C)]
#[derive(Clone, Copy, Debug, Default, PartialEq, Eq)]
pub struct Put {
    pub result: u64,
    pub next: u64,
}

/// `lumbixet_frequency`: the four values of an ACK_FREQUENCY frame, and its length.
#[repr(C)]
#[derive(Clone, Copy, Debug, Default, PartialEq, Eq)]
pub struct FrequencyFrame {
    pub result: u64,
    pub sequence: u64,
    pub threshold: u64,
    pub delay: u64,
    pub reordering: u64,
    pub used: u64,
}

/// `lumbixet_immediate_frame`: an IMMEDIATE_ACK frame's length.
#[repr(C)]
#[derive(Clone, Copy, Debug, Default, PartialEq, Eq)]
pub struct ImmediateFrame {
    pub result: u64,
    pub used: u64,
}

/// `lumbixet_ack`: an ACK frame's numbers; its ranges stand in the lent slice. The last three are counts where `counts` is 1.
#[repr(C)]
#[derive(Clone, Copy, Debug, Default, PartialEq, Eq)]
pub struct AckFrame {
    pub result: u64,
    pub largest: u64,
    pub delay: u64,
    pub ranges: u64,
    pub used: u64,
    pub counts: u64,
    pub ect0: u64,
    pub ect1: u64,
    pub ce: u64,
}

/// `lumbixet_header`: the summary of a report, and its metrics.
#[repr(C)]
#[derive(Clone, Copy, Debug, Default, PartialEq, Eq)]
pub struct Header {
    pub timestamp: u64,
    pub interval: u64,
    pub total: u64,
    pub received: u64,
    pub late: u64,
    pub lost: u64,
    pub average: i64,
    pub metrics: u64,
    pub kinds: [u64; 8],
    pub values: [u64; 8],
    pub entries: u64,
}

/// `lumbixet_report`: what reading a report finds.
#[repr(C)]
#[derive(Clone, Copy, Debug, Default, PartialEq, Eq)]
pub struct Report {
    pub result: u64,
    pub header: Header,
}

/// `lumbixet_entries`: where the entries of a report stand in the caller's own bytes.
#[repr(C)]
#[derive(Clone, Copy, Debug, Default, PartialEq, Eq)]
pub struct Entries {
    pub start: u64,
    pub length: u64,
}

/// `lumbixet_entry`: one entry; its group is 0 in profile 1.
#[repr(C)]
#[derive(Clone, Copy, Debug, Default, PartialEq, Eq)]
pub struct EntryFound {
    pub result: u64,
    pub group: u64,
    pub object: u64,
    pub status: u64,
    pub age: u64,
}

/// `lumbixet_newest`: the newest object not received, where `found` is 1; its group is 0 in profile 1.
#[repr(C)]
#[derive(Clone, Copy, Debug, Default, PartialEq, Eq)]
pub struct NewestLost {
    pub result: u64,
    pub found: u64,
    pub group: u64,
    pub object: u64,
}

/// `lumbixet_written`: what the writer of reports answers.
#[repr(C)]
#[derive(Clone, Copy, Debug, Default, PartialEq, Eq)]
pub struct Written {
    pub result: u64,
    pub next: u64,
    pub kept: u64,
}

/// `lumbixet_tracker`: what became of 256 objects. Every bit pattern of it has a meaning.
#[repr(C)]
#[derive(Clone, Copy, Debug, PartialEq, Eq)]
pub struct Tracker {
    pub first: u64,
    pub interval: u64,
    pub named: u64,
    pub objects: [u64; 256],
}

/// `lumbixet_totals`: the totals of a week's reports. Every bit pattern of it has a meaning.
#[repr(C)]
#[derive(Clone, Copy, Debug, PartialEq, Eq)]
pub struct WeekTotals {
    pub sums: [u64; 29],
    pub full: [u64; 29],
    pub skip: u64,
}

/// `lumbixet_added`: the number under which a report was counted, 0 for accepted, and the totals with it.
#[repr(C)]
#[derive(Clone, Copy, Debug, PartialEq, Eq)]
pub struct Added {
    pub counted_as: u64,
    pub next: WeekTotals,
}

/// `lumbixet_taken`: the totals with the reports of a piece, and how many bytes of it were taken.
#[repr(C)]
#[derive(Clone, Copy, Debug, PartialEq, Eq)]
pub struct Taken {
    pub next: WeekTotals,
    pub used: u64,
}

/// `lumbixet_page`: the length of the page.
#[repr(C)]
#[derive(Clone, Copy, Debug, Default, PartialEq, Eq)]
pub struct Page {
    pub result: u64,
    pub length: u64,
}

#[link(name = "lumbixet", kind = "static")]
extern "C" {
    pub fn lumbixet_read_number(bytes: *const u8, length: usize, at: usize) -> Number;
    pub fn lumbixet_put_number(buffer: *mut u8, length: usize, at: usize, value: u64) -> Put;
    pub fn lumbixet_read_frequency(bytes: *const u8, length: usize) -> FrequencyFrame;
    pub fn lumbixet_read_frequency_as(kind: u64, bytes: *const u8, length: usize) -> FrequencyFrame;
    pub fn lumbixet_read_immediate(bytes: *const u8, length: usize) -> ImmediateFrame;
    pub fn lumbixet_read_ack(bytes: *const u8, length: usize, ranges: *mut u64, room: usize) -> AckFrame;
    pub fn lumbixet_read_ack_as(kind: u64, bytes: *const u8, length: usize, ranges: *mut u64, room: usize) -> AckFrame;
    pub fn lumbixet_put_frequency(
        buffer: *mut u8,
        length: usize,
        sequence: u64,
        threshold: u64,
        delay: u64,
        reordering: u64,
    ) -> Put;
    pub fn lumbixet_put_immediate(buffer: *mut u8, length: usize) -> Put;
    pub fn lumbixet_open(threshold: u64, reordering: u64, maximum_ms: u64, minimum_us: u64) -> Answer;
    pub fn lumbixet_packet(receiver: Receiver, number: u64, time_us: u64, eliciting: bool, ecn: u64) -> Answer;
    pub fn lumbixet_timer(receiver: Receiver, time_us: u64) -> Answer;
    pub fn lumbixet_threshold(receiver: Receiver, sequence: u64, threshold: u64, delay_us: u64, reordering: u64) -> Answer;
    pub fn lumbixet_immediate(receiver: Receiver) -> Answer;
    pub fn lumbixet_confirm(receiver: Receiver, largest: u64) -> Answer;
    pub fn lumbixet_write(receiver: Receiver, time_us: u64, counts: bool, buffer: *mut u8, length: usize) -> Wrote;
    pub fn lumbixet_packet_lent(receiver: *mut Receiver, number: u64, time_us: u64, eliciting: bool, ecn: u64) -> u64;
    pub fn lumbixet_timer_lent(receiver: *mut Receiver, time_us: u64) -> u64;
    pub fn lumbixet_write_lent(receiver: *mut Receiver, time_us: u64, counts: bool, buffer: *mut u8, length: usize) -> WroteLent;
    pub fn lumbixet_read_report(profile: u64, bytes: *const u8, length: usize) -> Report;
    pub fn lumbixet_find_entries(profile: u64, bytes: *const u8, length: usize) -> Entries;
    pub fn lumbixet_read_entry(profile: u64, entries: *const u8, length: usize, index: usize) -> EntryFound;
    pub fn lumbixet_newest_lost(profile: u64, bytes: *const u8, length: usize) -> NewestLost;
    pub fn lumbixet_write_report(
        profile: u64,
        buffer: *mut u8,
        length: usize,
        header: Header,
        records: *const u8,
        records_length: usize,
        maximum: u64,
    ) -> Written;
    pub fn lumbixet_tracker_open(tracker: *mut Tracker, first: u64, interval_us: u64) -> u64;
    pub fn lumbixet_tracker_arrived(tracker: *mut Tracker, object: u64, time_us: u64, deadline: u64) -> u64;
    pub fn lumbixet_tracker_ended_early(tracker: *mut Tracker, object: u64, time_us: u64) -> u64;
    pub fn lumbixet_tracker_report(
        tracker: *const Tracker,
        time_us: u64,
        interval_us: u64,
        entries: *mut u8,
        length: usize,
    ) -> Report;
    pub fn lumbixet_totals_open() -> WeekTotals;
    pub fn lumbixet_totals_add(totals: WeekTotals, report: *const u8, length: usize) -> Added;
    pub fn lumbixet_totals_piece(totals: WeekTotals, piece: *const u8, length: usize) -> Taken;
    pub fn lumbixet_totals_page(totals: WeekTotals, left: usize, buffer: *mut u8, length: usize) -> Page;
}
