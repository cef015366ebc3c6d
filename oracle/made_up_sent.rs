//! Made-up records of the sending side: consistent by construction; with one clause of consistency broken; any words at all.
//! And the archive's words for what this program knows of the numbers sent.

use crate::archive::{place, Losses as Raw};
use crate::compare_codec::ack_frame_of;
use crate::made_up::up_to;
use crate::numbers::LARGEST;
use crate::random::Random;
use crate::sent::{Losses, HELD};
use std::collections::BTreeSet;

/// The record of the papers that an archive's record stands for; also a made-up one. While fewer than 1,024 numbers are held,
/// a place without a held number stands for one that is still to be sent.
pub fn losses_of(raw: &Raw) -> Losses {
    let oldest = raw.next.saturating_sub(HELD);
    let marked = |words: &[u64; 16]| -> BTreeSet<u64> {
        let places = (0..HELD).filter(|at| words[place(*at).0] & place(*at).1 != 0);
        places.map(|at| oldest + (HELD + at - oldest % HELD) % HELD).collect()
    };
    Losses {
        next: raw.next,
        acknowledged: marked(&raw.acknowledged),
        lost: marked(&raw.lost),
        forgotten_acknowledged: raw.acknowledged_before,
        forgotten_lost: raw.lost_before,
        largest: raw.end.checked_sub(1),
    }
}

/// The archive's record that stands for a record of the papers.
pub fn raw_of(losses: &Losses) -> Raw {
    let words = |numbers: &BTreeSet<u64>| {
        let mut words = [0; 16];
        for (word, mask) in numbers.iter().map(|number| place(number % HELD)) {
            words[word] |= mask;
        }
        words
    };
    Raw {
        acknowledged: words(&losses.acknowledged),
        lost: words(&losses.lost),
        next: losses.next,
        acknowledged_before: losses.forgotten_acknowledged,
        lost_before: losses.forgotten_lost,
        end: losses.largest.map_or(0, |largest| largest + 1),
    }
}

/// Most are consistent, some break one clause, a few are any words.
pub fn raw(random: &mut Random) -> Raw {
    let mut losses = consistent(random);
    if random.chance(250) {
        break_one_clause(random, &mut losses);
    }
    let mut raw = raw_of(&losses);
    if random.chance(20) {
        raw.acknowledged.iter_mut().chain(&mut raw.lost).for_each(|word| *word = random.any());
        (raw.next, raw.end) = (random.any() >> random.below(64), random.any() >> random.below(64));
        (raw.acknowledged_before, raw.lost_before) = (random.any() >> random.below(64), random.any());
    }
    raw
}

/// How many were sent: none, few, around the first 1,024, or any number up to 2^62.
fn how_many(random: &mut Random) -> u64 {
    match random.below(8) {
        0 => random.below(5),
        1 => random.below(HELD),
        2 => random.between(HELD - 2, HELD + 2),
        3 => LARGEST + 1 - random.below(3),
        4 => up_to(random, LARGEST + 1),
        _ => random.below(5000),
    }
}

/// A largest acknowledged number or none; the numbers that it passes by 3 are acknowledged or lost, the others in any state.
fn consistent(random: &mut Random) -> Losses {
    let next = how_many(random);
    let oldest = next.saturating_sub(HELD);
    let largest = match random.below(4) {
        _ if next == 0 => None,
        0 => None,
        1 => Some(next - 1 - random.below(60).min(next - 1)),
        2 => Some(next - 1),
        _ => Some(up_to(random, next - 1)),
    };
    let forgotten_lost = up_to(random, oldest);
    let mut losses =
        Losses { next, largest, forgotten_lost, forgotten_acknowledged: oldest - forgotten_lost, ..Losses::default() };
    let (passed_acknowledged, known) = (random.one_of(&[0, 500, 980, 1000]), random.one_of(&[0, 20, 500, 1000]));
    for number in oldest..next {
        let passed = largest.map_or(false, |largest| largest >= number + 3);
        if passed || random.chance(known) {
            let set = if random.chance(passed_acknowledged) { &mut losses.acknowledged } else { &mut losses.lost };
            set.insert(number);
        }
    }
    // the oldest one decides a send
    if random.chance(300) && largest.map_or(true, |largest| largest < oldest + 3) {
        losses.acknowledged.remove(&oldest);
        losses.lost.remove(&oldest);
    }
    losses
}

/// The clauses of docs/DECISIONS.md on 1.
fn break_one_clause(random: &mut Random, losses: &mut Losses) {
    let held = losses.next - losses.oldest();
    let any = losses.oldest() + random.below(held.max(1));
    match random.below(8) {
        0 => losses.forgotten_lost = losses.forgotten_lost.saturating_sub(random.between(1, 3)),
        1 => losses.forgotten_acknowledged += random.between(1, 3),
        // a sum that is right where it comes back to 0 at 2^64
        2 => {
            losses.forgotten_acknowledged = random.one_of(&[u64::MAX, 1 << 63]);
            losses.forgotten_lost = losses.oldest().wrapping_sub(losses.forgotten_acknowledged);
        }
        3 => {
            losses.acknowledged.insert(any);
            losses.lost.insert(any);
        }
        4 => {
            let set = if random.chance(500) { &mut losses.acknowledged } else { &mut losses.lost };
            // only where a place is free it stands for that number in the archive's words, too
            set.insert((losses.next + random.below(3)).min(HELD - 1).max(losses.next));
        }
        5 => {
            losses.next = LARGEST + 1 + random.between(1, 3);
            let oldest = losses.oldest();
            (losses.forgotten_lost, losses.forgotten_acknowledged) = (7, oldest - 7);
            (losses.acknowledged, losses.lost) = ((oldest..losses.next).collect(), BTreeSet::new());
        }
        6 => {
            losses.largest = Some(losses.next + random.below(3));
            if random.chance(700) {
                let outstanding: Vec<u64> = (losses.oldest()..losses.next).filter(|number| losses.outstanding(*number)).collect();
                losses.lost.extend(outstanding);
            }
        }
        _ => {
            losses.largest = losses.next.checked_sub(1);
            let passed = losses.next.saturating_sub(random.between(4, 6)).max(losses.oldest());
            losses.acknowledged.remove(&passed);
            losses.lost.remove(&passed);
        }
    }
}

/// An ACK frame near what was sent: its largest number the last one or another that is held, a forgotten one, or one that was
/// never sent; its ranges short or long.
pub fn frame_near(random: &mut Random, losses: &Losses) -> Vec<u8> {
    let last = losses.next.saturating_sub(1).min(LARGEST);
    let oldest = losses.oldest().min(LARGEST);
    let largest = match random.below(12) {
        0 => (last + random.between(1, 3)).min(LARGEST),
        1 => up_to(random, LARGEST),
        2 => oldest.saturating_sub(random.below(4)),
        3..=5 => last - random.below(40).min(last),
        6 => last - random.below(HELD).min(last),
        _ => last,
    };
    let mut frame = if random.chance(150) {
        // one range over all that is held, or nearly
        let down = random.one_of(&[HELD - 2, HELD - 1, HELD, HELD + 1, largest]).min(largest);
        ack_frame_of(random, largest, 0, |_| down)
    } else {
        let count = random.one_of(&[0, 1, 2, 5, 20, 64]);
        let longest = random.one_of(&[1, 2, 4, 30, 300]).min(1 + largest / (count + 1));
        ack_frame_of(
            random,
            largest,
            count,
            |random| if random.chance(995) { random.below(longest) } else { up_to(random, largest) },
        )
    };
    if random.chance(40) {
        frame.pop();
    }
    frame
}
