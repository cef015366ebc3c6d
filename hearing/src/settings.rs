//! The settings that are shown: two rate controls, six lines and requests. All are shown, also those where nothing happens.

use crate::hearing::Setting;
use crate::line::Nature;

/// 4 Mbit/s, 30 ms each way, packets wait at most 150 ms; nothing else happens.
const QUIET: Nature = Nature {
    rate: 4_000_000,
    delay: 30_000,
    longest_wait: 150_000,
    loss: 0,
    reordering: 0,
    reordered_by: 0,
    interruption: 0,
    every: 0,
    marked_after: u64::MAX,
};

/// Interruptions as a radio link has them, every three seconds.
const SHORT_GAPS: Nature = Nature { interruption: 60_000, every: 3_000_000, ..QUIET };
const LONG_GAPS: Nature = Nature { interruption: 300_000, every: 3_000_000, ..QUIET };
/// One millisecond of a hundred loses what is sent in it, and one of fifty delays it by 8 ms.
const LOSSY: Nature = Nature { loss: 10_000, reordering: 20_000, reordered_by: 8_000, ..QUIET };
/// Too narrow for the highest rate; the queue marks what waits longer than 10 ms.
const NARROW: Nature = Nature { rate: 1_500_000, marked_after: 10_000, ..QUIET };

/// The sender asks for T and a delay, and R 3; the older frame that comes behind asks for R 0.
const fn setting(name: &'static str, scream: bool, line: Nature, threshold: u64, delay: u64) -> Setting {
    Setting { name, scream, line, threshold, delay, reordering: 3, stale_reordering: 0 }
}

pub const SETTINGS: [Setting; 12] = [
    setting("SCReAMv2, quiet line, T 20, 80 ms", true, QUIET, 20, 80_000),
    setting("SCReAMv2, 60 ms gaps, T 20, 80 ms", true, SHORT_GAPS, 20, 80_000),
    setting("SCReAMv2, 60 ms gaps, T 2, 25 ms", true, SHORT_GAPS, 2, 25_000),
    setting("SCReAMv2, 300 ms gaps, T 20, 80 ms", true, LONG_GAPS, 20, 80_000),
    setting("SCReAMv2, loss and reordering, T 20, 80 ms", true, LOSSY, 20, 80_000),
    setting("SCReAMv2, narrow with marks, T 20, 80 ms", true, NARROW, 20, 80_000),
    setting("NDTC, quiet line, T 20, 80 ms", false, QUIET, 20, 80_000),
    setting("NDTC, 60 ms gaps, T 20, 80 ms", false, SHORT_GAPS, 20, 80_000),
    setting("NDTC, 60 ms gaps, T 2, 25 ms", false, SHORT_GAPS, 2, 25_000),
    setting("NDTC, 300 ms gaps, T 20, 80 ms", false, LONG_GAPS, 20, 80_000),
    setting("NDTC, loss and reordering, T 20, 80 ms", false, LOSSY, 20, 80_000),
    setting("NDTC, narrow with marks, T 20, 80 ms", false, NARROW, 20, 80_000),
];
