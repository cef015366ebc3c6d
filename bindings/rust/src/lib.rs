//! Lumbixet, the receiver of a live hearing, for hosts in Rust: which acknowledgments a QUIC receiver owes its sender, the
//! frames that say so, and feedback reports. A safe interface over liblumbixet.a, whose every function is proved.
//!
//! No call allocates, waits, or keeps anything between calls. A refused call changes nothing; of a report in [`Pieces`] alone the
//! entries that came before the fault stay.
//!
//! A host names this folder in its Cargo.toml: `lumbixet = { path = ".." }`. The archive is sought in the folder that
//! LUMBIXET_LIB_DIR names; where it names none, in this checkout (`make archive`), then where pkg-config finds one.
//! docs/hosts has a page for each day's work: DRIVING.md the order of calls, TRACKING.md that of the tracker, SENDING.md that of
//! the loss list, STREAMS.md that of a report in pieces.
//!
//! ```
//! use lumbixet::{Cause, Mark, Micros, Millis, Packet, Receiver, ACK_ROOM};
//! # fn main() -> Result<(), lumbixet::Refusal> {
//! let mut receiver = Receiver::open(1000, 3, Millis(25), Micros(1000))?;
//! let packet = |number, time| Packet { number, time: Micros(time), eliciting: true, mark: Mark::Ect0 };
//! assert_eq!(receiver.packet(packet(0, 1000))?, None);
//! assert_eq!(receiver.wake(), Some(Micros(26000)));
//! assert_eq!(receiver.packet(packet(4, 2000))?, Some(Cause::Order)); // 1 to 3 are missing
//! let mut buffer = [0; ACK_ROOM];
//! let frame = receiver.write(Micros(2000), &mut buffer)?;
//! assert_eq!(frame, [0x02, 4, 0, 1, 0, 2, 0]);
//! let frame = receiver.write_with_counts(Micros(2000), &mut buffer)?; // the same, then ECT(0), ECT(1), CE
//! assert_eq!(frame, [0x03, 4, 0, 1, 0, 2, 0, 2, 0, 0]);
//! # Ok(())
//! # }
//! ```
#![no_std]
#![deny(missing_docs)]

#[cfg(any(test, feature = "std"))]
extern crate std;

mod frames;
mod marks;
mod pieces;
mod profile;
pub mod raw;
mod receiver;
mod refusal;
mod report;
mod sent;
mod tracker;
mod version;
mod week;

pub use frames::{read_number, write_number, Ack, Frequency, Immediate};
pub use marks::{Counts, Mark, Totals};
pub use pieces::{Pieces, Taken};
pub use profile::{Metrics, Profile, Record};
pub use receiver::{Heard, Packet, Receiver};
pub use refusal::{Cause, Refusal};
pub use report::{Entries, Entry, Header, Lost, Report, Status, Written};
pub use sent::{Changes, Losses, States, HELD, PACKET_THRESHOLD};
pub use tracker::{Made, Tracker, TRACKED};
pub use version::version;
pub use week::{Sum, Week, PAGE_ROOM, PIECE_LEAST};

/// Microseconds: times, the minimum delay, and the delay in force.
#[derive(Clone, Copy, Debug, Default, PartialEq, Eq, PartialOrd, Ord, Hash)]
pub struct Micros(pub u64);

/// Milliseconds: the own maximum delay.
#[derive(Clone, Copy, Debug, Default, PartialEq, Eq, PartialOrd, Ord, Hash)]
pub struct Millis(pub u64);

/// The largest number, threshold and time: 2^62 - 1.
pub const LARGEST: u64 = (1 << 62) - 1;

/// Bytes that hold an ACK frame with counts and every range of the window, at any time.
pub const ACK_ROOM: usize = 1066;

/// Bytes that hold every ACK_FREQUENCY frame.
pub const FREQUENCY_ROOM: usize = 34;

/// Bytes that hold every report of profile 1: four metrics and 200 entries.
pub const REPORT_ROOM: usize = 3295;

/// Bytes that hold every report of profile 2: eight metrics and 200 entries.
pub const REPORT_2_ROOM: usize = 4987;

/// How many entries a report may have.
pub const ENTRIES: u64 = 200;

/// How many entries old receivers take, which refuse more with [`Refusal::CountOrType`].
pub const OLD_ENTRIES: u64 = 50;

/// How many numbers [`Ack::read`] needs at most for the ranges of a frame in so many bytes.
#[must_use]
pub const fn ranges_room(bytes: usize) -> usize {
    if bytes > 5 {
        bytes - 3
    } else {
        2
    }
}
