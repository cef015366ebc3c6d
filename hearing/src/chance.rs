//! Chance that is the same in every run: a number is drawn from a seed and from what it is drawn for, not from a stream, so that
//! what happens on the line at a moment does not depend on what was sent before.

/// A number from 0 to 999,999 for a seed and a moment (the mixing steps of SplitMix64).
pub fn drawn(seed: u64, moment: u64) -> u64 {
    let mut x = seed.wrapping_mul(0x9e37_79b9_7f4a_7c15).wrapping_add(moment.wrapping_mul(0xbf58_476d_1ce4_e5b9));
    x = (x ^ (x >> 30)).wrapping_mul(0xbf58_476d_1ce4_e5b9);
    x = (x ^ (x >> 27)).wrapping_mul(0x94d0_49bb_1331_11eb);
    (x ^ (x >> 31)) % 1_000_000
}

/// A number from -1 to 1.
pub fn swing(seed: u64, moment: u64) -> f64 {
    drawn(seed, moment) as f64 / 500_000.0 - 1.0
}
