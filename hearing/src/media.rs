//! What the hearing sends: a piece of sound every 20 ms, which must be there in time to be played, and a picture every 40 ms, as
//! large as the encoder's rate allows.

use crate::chance::swing;
use crate::control::PICTURE_EVERY;

pub const SOUND_EVERY: u64 = 20_000;
pub const SOUND_BYTES: u64 = 160;
/// A piece of sound is played so long after it was recorded; later it is of no use.
pub const PLAYED_AFTER: u64 = 200_000;
pub const MOST_PACKET_BYTES: u64 = 1200;
const OVERHEAD: u64 = 40;

/// What a packet carries.
#[derive(Clone, Copy, PartialEq, Eq)]
pub enum Content {
    Sound {
        piece: u64,
    },
    Picture {
        picture: u64,
        index: u64,
        of: u64,
    },
    /// An ACK_FREQUENCY frame.
    Rules {
        sequence: u64,
        reordering: u64,
    },
    /// A probe, so that a silent receiver has something to acknowledge.
    Ping,
}

/// The bytes of a picture at a rate: the encoder meets it to a tenth.
pub fn picture_bytes(rate: f64, seed: u64, picture: u64) -> u64 {
    let nominal = rate * PICTURE_EVERY as f64 / 8_000_000.0;
    (nominal * (1.0 + 0.1 * swing(seed ^ 0x70_6963, picture))) as u64
}

/// The sizes of a picture's packets, alike and with what stands around them.
pub fn packets_of(bytes: u64) -> Vec<u64> {
    let count = ((bytes + MOST_PACKET_BYTES - OVERHEAD - 1) / (MOST_PACKET_BYTES - OVERHEAD)).max(1);
    (0..count).map(|index| bytes / count + u64::from(index < bytes % count) + OVERHEAD).collect()
}
