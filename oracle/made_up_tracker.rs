//! Made-up records of the tracker: consistent by construction; with one clause of consistency broken; any words at all. And
//! the archive's words for what this program knows of the objects.

use crate::archive::Tracker as Raw;
use crate::made_up::up_to;
use crate::numbers::LARGEST;
use crate::random::Random;
use crate::tracker::{Known, Tracker, OBJECTS};

/// The times of a word lie below its two top bits, which say: nothing, ended early, received, late.
const STATE: u32 = 62;

fn known_of(word: u64) -> Option<Known> {
    let time = word & LARGEST;
    match word >> STATE {
        0 => None,
        1 => Some(Known::Ended { time }),
        state => Some(Known::Arrived { time, late: state == 3 }),
    }
}

fn word_of(known: Known) -> u64 {
    match known {
        Known::Ended { time } => 1 << STATE | time,
        Known::Arrived { time, late } => (2 + u64::from(late)) << STATE | time,
    }
}

/// The tracker of the papers that an archive's record stands for; also a made-up one.
pub fn tracker_of(raw: &Raw) -> Tracker {
    let known = (0..).zip(raw.objects).filter_map(|(place, word)| known_of(word).map(|known| (place, known)));
    Tracker { first: raw.first, interval: raw.interval, first_arrival: raw.named.checked_sub(1), objects: known.collect() }
}

/// The archive's record after a call: a word changes where something else is known of its object, and no other word does.
pub fn raw_after(given: &Raw, before: &Tracker, after: &Tracker) -> Raw {
    let named = after.first_arrival.map_or(0, |place| place + 1);
    let mut raw = Raw { first: after.first, interval: after.interval, named, ..*given };
    for (place, known) in &after.objects {
        if before.objects.get(place) != Some(known) {
            raw.objects[*place as usize] = word_of(*known);
        }
    }
    raw
}

pub fn interval(random: &mut Random) -> u64 {
    match random.below(5) {
        0 => random.below(3),
        1 => up_to(random, LARGEST),
        2 => up_to(random, 1 << 56),
        _ => random.one_of(&[10, 20_000, 40_000]),
    }
}

/// Most are consistent, some break one clause, a few are any words.
pub fn raw(random: &mut Random) -> Raw {
    let mut raw = consistent(random);
    if random.chance(20) {
        raw.objects.iter_mut().for_each(|word| *word = random.any());
        (raw.first, raw.interval) = (random.any() >> random.below(64), random.any() >> random.below(64));
        raw.named = random.below(300);
    } else if random.chance(200) {
        break_one_clause(random, &mut raw);
    }
    raw
}

/// None, few, most or all of the objects are known, at their times or at any; one of those that arrived is the first.
fn consistent(random: &mut Random) -> Raw {
    let first = up_to(random, LARGEST - (OBJECTS - 1));
    let mut raw = Raw { first, interval: interval(random), named: 0, objects: [0; OBJECTS as usize] };
    let known = random.one_of(&[0, 10, 300, 900, 1000]);
    let arrived = random.one_of(&[0, 500, 950, 1000]);
    let (at_their_times, started) = (random.chance(700), up_to(random, LARGEST));
    for place in 0..OBJECTS {
        let expected = started.saturating_add(raw.interval.saturating_mul(place));
        let time = if at_their_times { expected.min(LARGEST) } else { up_to(random, LARGEST) };
        let time = time.saturating_sub(random.below(1 + raw.interval / 4));
        raw.objects[place as usize] = match (random.chance(known), random.chance(arrived)) {
            (true, true) => word_of(Known::Arrived { time, late: random.chance(300) }),
            (true, false) => word_of(Known::Ended { time }),
            // a time beside nothing means nothing
            _ => random.one_of(&[0, 0, 0, time]),
        };
    }
    let places: Vec<u64> = (0..OBJECTS).filter(|place| has_arrived(&raw, *place)).collect();
    if !places.is_empty() {
        raw.named = 1 + random.one_of(&places);
    }
    raw
}

pub fn has_arrived(raw: &Raw, place: u64) -> bool {
    matches!(known_of(raw.objects[place as usize]), Some(Known::Arrived { .. }))
}

/// The clauses of docs/DECISIONS.md on 1; the last four lines take the one on the first arrival.
fn break_one_clause(random: &mut Random, raw: &mut Raw) {
    let above = random.one_of(&[LARGEST + 1, LARGEST + 2, u64::MAX]);
    let place = random.below(OBJECTS);
    match random.below(6) {
        0 => raw.first = random.one_of(&[LARGEST - (OBJECTS - 2), LARGEST, above, u64::MAX - (OBJECTS - 2)]),
        1 => raw.interval = above,
        2 => raw.named = 0,
        3 => raw.named = random.one_of(&[OBJECTS + 1, OBJECTS + 2, above]),
        4 => raw.named = 1 + place,
        _ => (raw.named, raw.objects[place as usize]) = (1 + place, 1 << STATE),
    }
}
