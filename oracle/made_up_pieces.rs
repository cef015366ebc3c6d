//! Records of the reader in pieces: what the archive's words stand for, which of them are refused with 1, and made-up ones.

use crate::archive::Pieces as Raw;
use crate::made_up::up_to;
use crate::made_up_report::{numbers_of, profile, profile_of, report};
use crate::numbers::{read, Number, LARGEST};
use crate::pieces::{open, records_to_come, Awaited, Pieces};
use crate::profile::Profile;
use crate::random::Random;
use crate::refusals::{ACCEPTED, BYTES_BEHIND, COUNT_OR_TYPE, ENDS, ENTRY, LONGER_FORM, SUM};

/// The stages of the archive's record.
const IN_NUMBERS: u64 = 0;
const IN_ENTRIES: u64 = 1;
const COUNTING: u64 = 2;
const REFUSED: u64 = 3;
const ENDED: u64 = 4;

/// How many numbers every header has before its metrics; the last of them is the metric count.
const FIXED: usize = 8;
/// The numbers of a header with 8 metrics, and the bytes of a record of profile 2.
const MOST_NUMBERS: u64 = 25;
const MOST_CARRIED: u64 = 24;
/// What a report may be refused with once it was opened.
const REFUSALS: [u64; 6] = [ENDS, COUNT_OR_TYPE, SUM, ENTRY, BYTES_BEHIND, LONGER_FORM];

/// What the number at a place is.
fn awaited_at(place: usize, metrics: u64) -> Awaited {
    use Awaited::*;
    match place.checked_sub(FIXED) {
        None => [Timestamp, Interval, Total, Received, Late, Lost, Average, MetricCount][place],
        Some(behind) if behind as u64 == 2 * metrics => EntryCount,
        Some(behind) if behind % 2 == 0 => Kind(behind / 2),
        Some(behind) => Value(behind / 2),
    }
}

/// The reader of the papers that a record stands for; none where docs/DECISIONS.md says that it is not consistent.
pub fn pieces_of(raw: &Raw) -> Option<Pieces> {
    let mut pieces = open(raw.profile).ok()?;
    if raw.stage > ENDED || raw.come > MOST_NUMBERS || raw.carried > MOST_CARRIED {
        return None;
    }
    if raw.stage == REFUSED {
        pieces.settled = Some(raw.left).filter(|left| REFUSALS.contains(left));
        return pieces.settled.is_some().then_some(pieces);
    }
    // the numbers come once more: each obeys 5, a header wants it, and it brings no fault
    for value in raw.numbers[..raw.come as usize].iter().copied() {
        if value > LARGEST || pieces.is_headed() {
            return None;
        }
        pieces.number(Number { value, next: 0, shortest: true }).ok()?;
    }
    let carried = raw.bytes[..raw.carried as usize].iter().map(|byte| *byte as u8).collect();
    match (raw.stage, pieces.is_headed()) {
        (IN_NUMBERS, false) => in_numbers(pieces, carried),
        (IN_ENTRIES, true) => in_entries(pieces, raw, carried),
        (COUNTING, true) => counting(pieces, raw.left),
        (ENDED, true) => Some(Pieces { awaited: Awaited::Behind, settled: Some(ACCEPTED), ..pieces }),
        _ => None,
    }
}

/// What is carried of the next number is not a whole one.
fn in_numbers(pieces: Pieces, carried: Vec<u8>) -> Option<Pieces> {
    let whole_number = read(&carried, 0).is_ok();
    Some(Pieces { carried, ..pieces }).filter(|_| !whole_number)
}

/// The entries to come are some of those that the header counts. The last one's place is one, in profile 1 of no group, and there is
/// none before the first entry. What is carried is not a whole entry, and is nothing where none is to come.
fn in_entries(pieces: Pieces, raw: &Raw, carried: Vec<u8>) -> Option<Pieces> {
    let (none_came, none_to_come) = (raw.left == pieces.header.entries, raw.left == 0);
    let largest_group = if pieces.profile == Profile::One { 0 } else { LARGEST };
    let place_obeys = if none_came {
        (raw.group, raw.above) == (0, 0)
    } else {
        raw.group <= largest_group && raw.above > 0 && raw.above <= LARGEST + 1
    };
    let unfinished = if none_to_come { carried.is_empty() } else { carried.len() < pieces.profile.record() };
    let obeys = raw.left <= pieces.header.entries && place_obeys && unfinished;
    let (awaited, least) = (records_to_come(raw.left), (raw.group, raw.above));
    Some(Pieces { awaited, least, carried, ..pieces }).filter(|_| obeys)
}

/// The bad entry was one of those that the header counts, and the bytes to come are at most those of the others.
fn counting(pieces: Pieces, left: u64) -> Option<Pieces> {
    let others = pieces.header.entries.checked_sub(1)?;
    let obeys = left <= others * pieces.profile.record() as u64;
    Some(Pieces { awaited: Awaited::Counted(left), ..pieces }).filter(|_| obeys)
}

/// The archive's record for where the papers' reader stands now; `given` is the one before. Words that mean nothing are 0.
pub fn raw_after(given: &Raw, after: &Pieces) -> Raw {
    let mut raw = Raw { profile: given.profile, ..Raw::default() };
    (raw.stage, raw.left) = match (after.settled, after.awaited) {
        (Some(ACCEPTED), _) => (ENDED, 0),
        (Some(refusal), _) => (REFUSED, refusal),
        (None, Awaited::Record(left)) => (IN_ENTRIES, left),
        (None, Awaited::Behind) => (IN_ENTRIES, 0),
        (None, Awaited::Counted(left)) => (COUNTING, left),
        (None, _) => (IN_NUMBERS, 0),
    };
    if raw.stage == REFUSED {
        return raw;
    }
    // once the header is whole its numbers stay as they are
    let numbers = if given.stage == IN_NUMBERS { come(after) } else { given.numbers[..given.come as usize].to_vec() };
    raw.come = numbers.len() as u64;
    raw.numbers[..numbers.len()].copy_from_slice(&numbers);
    if raw.stage == IN_ENTRIES {
        (raw.group, raw.above) = after.least;
    }
    if raw.stage == IN_NUMBERS || raw.stage == IN_ENTRIES {
        raw.carried = after.carried.len() as u64;
        raw.bytes.iter_mut().zip(&after.carried).for_each(|(word, byte)| *word = u64::from(*byte));
    }
    raw
}

/// The numbers that have come of a header.
fn come(pieces: &Pieces) -> Vec<u64> {
    let mut numbers = numbers_of(pieces.profile, &pieces.header, pieces.header.entries);
    let place = (0..numbers.len()).find(|place| awaited_at(*place, pieces.header.metrics) == pieces.awaited);
    numbers.truncate(place.unwrap_or(numbers.len()));
    numbers
}

/// A record that some bytes of a made-up report leave.
fn grown(random: &mut Random, number: u64) -> Raw {
    let bytes = report(random, profile_of(number));
    let header_ends = random.below(40).min(bytes.len() as u64);
    let length = if random.chance(500) { header_ends } else { random.below(bytes.len() as u64 + 1) };
    let mut pieces = open(number).expect("1 or 2");
    pieces.take(&bytes[..length as usize], &mut vec![0; 5000]);
    if random.chance(100) {
        let _ = pieces.end();
    }
    raw_after(&Raw { profile: number, ..Raw::default() }, &pieces)
}

/// Consistent, mostly as some bytes left it; at times with other words that are allowed, and where a word means nothing any.
pub fn consistent(random: &mut Random) -> Raw {
    let number = profile(random);
    loop {
        let mut raw = grown(random, number);
        while random.chance(400) {
            other_word(random, &mut raw);
        }
        raw.bytes.iter_mut().for_each(|word| *word |= random.one_of(&[0, 0, 0x100, u64::MAX << 8]));
        if pieces_of(&raw).is_some() {
            return raw;
        }
    }
}

/// One word is another one, near an edge of its rule.
pub fn other_word(random: &mut Random, raw: &mut Raw) {
    let any = up_to(random, u64::MAX);
    let edge = random.one_of(&[0, 1, LARGEST - 1, LARGEST, LARGEST + 1, LARGEST + 2, u64::MAX, any]);
    let place = random.below(MOST_NUMBERS) as usize;
    match random.below(10) {
        0 => raw.profile = random.one_of(&[0, 1, 2, 3, edge]),
        1 => raw.stage = random.one_of(&[0, 1, 2, 3, 4, 5, edge]),
        2 => raw.left = random.one_of(&[0, 1, 2, 9, 13, 14, 16, 200, 201, edge]),
        3 => raw.group = edge,
        4 => raw.above = edge,
        5 => raw.come = random.one_of(&[raw.come.wrapping_add(1), raw.come.wrapping_sub(1), 8, 9, 17, 25, 26, edge]),
        6 => raw.carried = random.one_of(&[raw.carried.wrapping_add(1), 1, 7, 8, 15, 16, 23, 24, 25, edge]),
        7 => raw.numbers[place] = edge,
        8 => raw.numbers[FIXED - 1] = random.below(10),
        _ => raw.bytes[place.min(23)] = edge,
    }
}

/// The clauses of docs/DECISIONS.md on 1, each with the moment that it is broken by itself.
pub const CLAUSES: [&str; 23] = [
    "1 for nothing but another profile",
    "1 for nothing but another stage",
    "1 for nothing but more numbers than a header has",
    "1 for nothing but more bytes carried than an entry has",
    "1 for nothing but a number above 2^62 - 1",
    "1 for nothing but the metric count",
    "1 for a header that is whole already",
    "1 for a number that is whole already",
    "1 for an entry that is whole already",
    "1 for more entries to come than the header counts",
    "1 for a last group above 2^62 - 1",
    "1 for a last object above 2^62 - 1",
    "1 for a refusal that no report is given",
    "1 for nothing but the sum",
    "1 for nothing but a metric type",
    "1 for nothing but the entry count",
    "1 for entries behind a header that is not whole",
    "1 for bytes counted behind a header that is not whole",
    "1 for a report accepted with a header that is not whole",
    "1 for a last group in profile 1",
    "1 for a last entry before the first came",
    "1 for bytes carried where no entry is to come",
    "1 for more bytes to be counted than the other entries have",
];

/// Breaks one clause of a consistent record; false where the record's stage has no such clause, or the change breaks nothing.
pub fn break_clause(random: &mut Random, raw: &mut Raw, clause: usize) -> bool {
    let any = up_to(random, u64::MAX);
    let above = random.one_of(&[LARGEST + 1, LARGEST + 2, u64::MAX]);
    let (come, stage, profile) = (raw.come as usize, raw.stage, profile_of(raw.profile));
    let record = profile.record() as u64;
    let headed = [IN_ENTRIES, COUNTING, ENDED].contains(&stage);
    let entries = if headed { raw.numbers[come - 1] } else { 0 };
    let some_came = stage == IN_ENTRIES && raw.left < entries;
    match clause {
        0 => raw.profile = random.one_of(&[0, 3, 1 << 32 | raw.profile, any.max(3)]),
        1 => raw.stage = random.one_of(&[5, 6, 1 << 32 | stage, any.max(5)]),
        2 => raw.come = random.one_of(&[26, 27, 1 << 32 | raw.come, any.max(26)]),
        3 => raw.carried = random.one_of(&[25, 26, 1 << 32 | raw.carried, any.max(25)]),
        4 if stage != REFUSED && come > 0 => raw.numbers[random.below(raw.come) as usize] = above,
        5 if stage != REFUSED && come >= FIXED => raw.numbers[FIXED - 1] = metrics_above(random, profile),
        6 if headed => (raw.stage, raw.carried) = (IN_NUMBERS, 0),
        7 if stage == IN_NUMBERS => {
            let (code, more) = (random.below(4), random.one_of(&[0, 0, 1, 16]));
            (raw.bytes[0], raw.carried) = (random.any() << 8 | code << 6 | random.below(64), (1 << code) + more);
        }
        8 if stage == IN_ENTRIES && raw.left > 0 => raw.carried = random.between(record, MOST_CARRIED),
        // with a place, as behind an entry that came
        9 if stage == IN_ENTRIES => {
            (raw.left, raw.above) = (random.one_of(&[entries + 1, entries + 2, 200.max(entries + 1), 1 << 32]), raw.above.max(1))
        }
        10 if some_came && profile == Profile::Two => raw.group = above,
        11 if some_came => raw.above = random.one_of(&[0, above.saturating_add(1)]),
        12 if stage == REFUSED => raw.left = random.one_of(&[0, 1, 3, 9, 14, 16, 18, 20, any.max(16)]),
        13 if stage != REFUSED && come > 5 => raw.numbers[2] = random.one_of(&[raw.numbers[2] ^ 1, 7, LARGEST]),
        14 if stage != REFUSED && come > FIXED && raw.numbers[FIXED - 1] > 0 => {
            let place = FIXED + 2 * random.below(raw.numbers[FIXED - 1]) as usize;
            raw.numbers[place] = random.one_of(&[raw.numbers[place] + 1, 1, 3, 0x14, LARGEST - 1]);
        }
        15 if headed => raw.numbers[come - 1] = random.one_of(&[201, 202, LARGEST]),
        16 if stage == IN_NUMBERS => {
            (raw.stage, raw.left, raw.group, raw.above, raw.carried) = (IN_ENTRIES, 0, 0, random.below(2), 0);
        }
        17 if stage == IN_NUMBERS => (raw.stage, raw.left) = (COUNTING, random.below(2)),
        18 if stage == IN_NUMBERS => raw.stage = ENDED,
        19 if some_came && profile == Profile::One => raw.group = random.one_of(&[1, 5, LARGEST, above]),
        20 if stage == IN_ENTRIES => {
            (raw.left, raw.carried) = (entries, 0);
            (raw.group, raw.above) = random.one_of(&[(1, 0), (0, 1), (1, 1), (LARGEST, 5)]);
        }
        // all came, and the last of them has a place
        21 if stage == IN_ENTRIES => {
            (raw.left, raw.above, raw.carried) = (0, raw.above.max(entries.min(1)), random.between(1, record - 1));
        }
        22 if headed && entries > 0 => {
            let most = record * (entries - 1);
            (raw.stage, raw.left) = (COUNTING, random.one_of(&[most + 1, most + record, 1 << 32, u64::MAX]));
        }
        _ => return false,
    }
    pieces_of(raw).is_none()
}

fn metrics_above(random: &mut Random, profile: Profile) -> u64 {
    let most = profile.most_metrics() as u64;
    random.one_of(&[most + 1, most + 2, LARGEST])
}
