//! Made-up receiver records: consistent by construction; with one clause of consistency broken; any bytes at all.

use crate::archive::{place, raw_of, Receiver};
use crate::numbers::LARGEST;
use crate::random::Random;
use crate::record::{Record, Totals, WINDOW};
use std::collections::BTreeSet;

/// A number up to a last one, often near an edge.
pub fn up_to(random: &mut Random, last: u64) -> u64 {
    match random.below(6) {
        0 => 0,
        1 => last,
        2 => random.below(40).min(last),
        3 => last - random.below(40).min(last),
        4 => last - random.below(1100).min(last),
        _ => (random.any() >> random.below(64)).min(last),
    }
}

/// A number, threshold or time; rarely one above 2^62 - 1.
pub fn argument(random: &mut Random) -> u64 {
    if random.chance(20) {
        return random.one_of(&[LARGEST + 1, LARGEST + 2, u64::MAX - 1, u64::MAX]);
    }
    up_to(random, LARGEST)
}

pub fn reordering(random: &mut Random) -> u64 {
    match random.below(8) {
        0 => random.between(1020, 1026),
        1 => random.between(4, 1023),
        2 => up_to(random, LARGEST),
        _ => random.below(6),
    }
}

/// A record by the paper's "Consistent means".
pub fn consistent(random: &mut Random) -> Record {
    let maximum_ms = random.one_of(&[0, 1, 25, 100, 16_383]);
    let minimum_us = up_to(random, maximum_ms * 1000);
    let largest = if random.chance(80) { None } else { Some(largest(random)) };
    let at_most = |random: &mut Random| largest.filter(|_| random.chance(700)).map(|largest| up_to(random, largest));
    let (acknowledged, highest, pending_largest) = (at_most(random), at_most(random), at_most(random));
    Record {
        largest,
        arrived: up_to(random, LARGEST),
        received: largest.map_or(BTreeSet::new(), |largest| marks(random, largest)),
        confirmed: largest.map_or(0, |largest| confirmed(random, largest)),
        strays: false,
        acknowledged,
        highest,
        pending_largest,
        pending: pending_largest.map_or(0, |_| waiting(random)),
        pending_first: up_to(random, LARGEST),
        ce: if random.chance(500) { 0 } else { random.any() },
        threshold: up_to(random, LARGEST),
        reordering: reordering(random),
        delay: minimum_us + up_to(random, 16_383_999 - minimum_us),
        maximum_ms,
        minimum_us,
        sequence: if random.chance(300) { None } else { Some(up_to(random, LARGEST)) },
        cause: if largest.is_none() || random.chance(700) { 0 } else { random.below(6) },
        totals: totals(random),
    }
}

/// How many packets wait: any number, and now and then the last before 2^62, where the count stays, or that.
fn waiting(random: &mut Random) -> u64 {
    if random.chance(30) {
        return LARGEST + random.below(2);
    }
    1 + up_to(random, LARGEST)
}

/// Nothing is asked of the four but that each obeys 5: also of a record that received nothing.
fn totals(random: &mut Random) -> Totals {
    let [ect0, ect1, ce, unmarked] = [(); 4].map(|()| up_to(random, LARGEST));
    Totals { ect0, ect1, ce, unmarked }
}

fn largest(random: &mut Random) -> u64 {
    if random.chance(500) {
        return random.below(3000);
    }
    up_to(random, LARGEST)
}

/// A floor at most L: none, at L or near it, in the window with marks below it, at the window's own floor, or anywhere.
fn confirmed(random: &mut Random, largest: u64) -> u64 {
    let below = match random.below(6) {
        0 | 1 => return 0,
        2 => random.below(4),
        3 => random.below(WINDOW),
        4 => random.between(WINDOW - 3, WINDOW + 3),
        _ => return up_to(random, largest),
    };
    largest.saturating_sub(below)
}

/// Which numbers of the window were received: all, nearly all, runs, every other one, few; L always.
fn marks(random: &mut Random, largest: u64) -> BTreeSet<u64> {
    let numbers = largest.saturating_sub(WINDOW - 1)..=largest;
    let style = random.below(6);
    let missing = random.below(1000);
    let mut inside = true;
    let mut received: BTreeSet<u64> = numbers
        .filter(|number| match style {
            0 => true,
            1 => !random.chance(3),
            2 => number % 2 == largest % 2,
            3 => random.chance(5),
            4 => {
                inside ^= random.chance(missing / 10);
                inside
            }
            _ => !random.chance(missing),
        })
        .collect();
    received.insert(largest);
    received
}

/// The archive's form of a made-up record: most are consistent, some break one clause, a few are any bytes.
pub fn raw(random: &mut Random) -> Receiver {
    if random.chance(20) {
        return any_bytes(random);
    }
    let mut raw = raw_of(&consistent(random));
    if random.chance(250) {
        break_one_clause(random, &mut raw);
    }
    raw
}

fn any_bytes(random: &mut Random) -> Receiver {
    let mut raw = Receiver::default();
    raw.window.iter_mut().for_each(|word| *word = random.any());
    let fields = [
        &mut raw.end,
        &mut raw.arrived,
        &mut raw.confirmed,
        &mut raw.pending_count,
        &mut raw.pending_end,
        &mut raw.pending_first,
        &mut raw.threshold,
        &mut raw.reordering,
        &mut raw.delay,
        &mut raw.sequence,
        &mut raw.maximum,
        &mut raw.minimum,
        &mut raw.acknowledged,
        &mut raw.highest,
        &mut raw.ce,
        &mut raw.cause,
        &mut raw.total_ect0,
        &mut raw.total_ect1,
        &mut raw.total_ce,
        &mut raw.total_unmarked,
    ];
    for field in fields {
        *field = random.any() >> random.below(64);
    }
    raw
}

/// Each line takes one clause of "Consistent means".
fn break_one_clause(random: &mut Random, raw: &mut Receiver) {
    let above = random.one_of(&[LARGEST + 1, LARGEST + 2, u64::MAX]);
    let above_end = random.one_of(&[LARGEST + 2, LARGEST + 3, u64::MAX]);
    let past = raw.end + random.between(1, 3);
    match random.below(31) {
        0 => raw.arrived = above,
        1 => raw.pending_first = above,
        2 => raw.threshold = above,
        3 => raw.reordering = above,
        4 => raw.sequence = above_end,
        5 => raw.end = above_end,
        6 => raw.pending_count = above_end,
        7 => raw.maximum = random.one_of(&[16_384, 16_385, above]),
        8 => raw.minimum = random.one_of(&[raw.maximum * 1000 + 1, raw.delay + 1, above]),
        9 => raw.delay = random.one_of(&[16_384_000, above]),
        10 => raw.delay = raw.minimum.saturating_sub(1),
        11 => raw.cause = random.one_of(&[6, 7, 256, u64::MAX]),
        12 => raw.acknowledged = past,
        13 => raw.highest = past,
        14 => raw.pending_end = past,
        15 => raw.pending_end = 0,
        16 => raw.pending_count = 0,
        17 => raw.window[15] &= !(1 << 63),
        18 => raw.end = 0,
        19 => mark_below_zero(random, raw),
        20 => (raw.end, raw.window) = (0, [0; 16]),
        21 => raw.window = [0; 16],
        22 => only_a_cause(random, raw),
        23 => raw.end = raw.end / 2 + random.below(2),
        // L is the end less one: the first of these is one above L
        24 => raw.confirmed = raw.end.saturating_add(random.below(3)),
        25 => raw.confirmed = random.one_of(&[above, above_end]),
        26 => raw.total_ect0 = above,
        27 => raw.total_ect1 = above,
        28 => raw.total_ce = above,
        29 => raw.total_unmarked = above,
        _ => raw.cause = random.below(6),
    }
}

/// A record with room below number 0, and a mark there.
fn mark_below_zero(random: &mut Random, raw: &mut Receiver) {
    raw.end = raw.end.min(random.below(WINDOW));
    for bit in 0..WINDOW - raw.end {
        let (word, mask) = place(bit);
        raw.window[word] &= !mask;
    }
    let (word, mask) = place(random.below(WINDOW - raw.end));
    raw.window[word] |= mask;
    (raw.acknowledged, raw.highest) = (raw.acknowledged.min(raw.end), raw.highest.min(raw.end));
    raw.pending_end = raw.pending_end.min(raw.end);
    raw.confirmed = raw.confirmed.min(raw.end.saturating_sub(1));
}

/// Nothing was received, and one thing says otherwise.
fn only_a_cause(random: &mut Random, raw: &mut Receiver) {
    (raw.end, raw.window, raw.acknowledged, raw.highest) = (0, [0; 16], 0, 0);
    (raw.pending_end, raw.pending_count, raw.cause, raw.confirmed) = (0, 0, 0, 0);
    match random.below(6) {
        0 => raw.cause = 1 + random.below(5),
        1 => raw.acknowledged = 1,
        2 => raw.highest = 1,
        3 => (raw.pending_end, raw.pending_count) = (1, 1),
        4 => raw.confirmed = 1,
        _ => raw.window[random.below(16) as usize] = 1 << random.below(64),
    }
}
