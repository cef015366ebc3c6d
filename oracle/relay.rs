//! What examples/relay.c prints before its times, by this program's receiver: two thousand rooms, and the counts of all calls
//! on them. The lines are drawn as examples/relay_line.h says.

use crate::numbers::LARGEST;
use crate::random::Random;
use crate::receiver::{confirm, immediate, open, packet, threshold, timer, write, Answer, NOT_DUE};
use crate::record::{Mark, Record};
use crate::refusals::ACCEPTED;
use std::collections::BTreeMap;
use std::io::{self, Write};

const ROOMS: u64 = 2000;
const TURNS: u64 = 1000;
const TURN_US: u64 = 5000;
const FRAME: usize = 128;
/// Each of the sixteen words and twenty numbers of a record has eight bytes.
const RECORD_BYTES: u64 = 8 * (16 + 20);

const CALLS: [(&str, &str); 6] = [
    ("packet", "lent"),
    ("timer", "lent"),
    ("write", "lent"),
    ("threshold", "by value"),
    ("immediate", "by value"),
    ("confirm", "by value"),
];

const CAUSES: [&str; 6] = [
    "nothing is due",
    "the sender asked for it",
    "more packets came than the threshold",
    "packets are missing or came out of order",
    "a packet had a congestion mark",
    "the delay in force has passed",
];

/// How often each call gave each result, and what was written.
struct Counts {
    results: BTreeMap<(&'static str, u64), u64>,
    causes: [u64; 6],
    bytes: usize,
    digest: u64,
}

/// A packet on its way.
struct Arrival {
    number: u64,
    time: u64,
    eliciting: bool,
    mark: Mark,
}

struct Room {
    room: u64,
    random: Random,
    /// The next number sent.
    next: u64,
    /// A number that is held back.
    held: Option<u64>,
    /// The largest number of an ACK that is to be confirmed, and in which turn.
    told: Option<(u64, u64)>,
    record: Option<Record>,
}

impl Room {
    fn opened(room: u64) -> Room {
        let threshold = [1, 3, 10, 1000][(room % 4) as usize];
        let reordering = [0, 1, 3, 5][(room / 4 % 4) as usize];
        let record = Some(open(threshold, reordering, 25, 1000).1);
        Room { room, random: Random::from_seed(room), next: 0, held: None, told: None, record }
    }

    fn record(&self) -> &Record {
        self.record.as_ref().expect("a room has its record between two calls")
    }

    fn call(&mut self, counts: &mut Counts, name: &'static str, call: impl FnOnce(Record) -> Answer) {
        let (result, next) = call(self.record.take().expect("a room has its record between two calls"));
        self.record = Some(next);
        *counts.results.entry((name, result)).or_default() += 1;
    }

    fn send(&mut self) -> u64 {
        self.next += 1;
        self.next - 1
    }

    fn arrival(&mut self, turn: u64) -> Option<Arrival> {
        let drawn = self.random.any();
        let kind = drawn % 128;
        if self.room % 25 == 0 && turn < 10 {
            return None;
        }
        let number = match (kind, self.held) {
            (0..=2, _) => {
                self.send();
                return None;
            }
            (3, None) => {
                self.held = Some(self.send());
                return None;
            }
            (4..=11, Some(held)) => {
                self.held = None;
                held
            }
            (12, _) if self.next > 0 => self.next - 1,
            (13, _) if self.next > 1100 => self.next - 1100,
            (14, _) if (drawn >> 8) % 16 == 0 => LARGEST + 1,
            _ => self.send(),
        };
        let mark = match (self.room % 4, (drawn >> 24) % 64) {
            (3, _) => Mark::Unmarked,
            (_, 0) => Mark::Ce,
            _ => Mark::Ect0,
        };
        Some(Arrival { number, time: turn * TURN_US + (drawn >> 32) % 1000, eliciting: (drawn >> 16) % 8 != 0, mark })
    }

    /// In every two hundredth turn some rooms have a record with a cause that is none.
    fn packet(&mut self, counts: &mut Counts, turn: u64) {
        let Arrival { number, time, eliciting, mark } = match self.arrival(turn) {
            Some(arrival) => arrival,
            None => return,
        };
        let spoiled = turn % 200 == 199 && self.room % 100 == 50;
        self.call(counts, "packet", |record| {
            let cause = record.cause;
            let given = if spoiled { Record { cause: 9, ..record } } else { record };
            let (result, next) = packet(given, number, time, eliciting, mark);
            (result, if spoiled { Record { cause, ..next } } else { next })
        });
    }

    fn timer(&mut self, counts: &mut Counts, turn: u64, now: u64) {
        let record = self.record();
        let waits = record.pending > 0 && record.cause == NOT_DUE;
        let place = self.room + turn;
        if waits && record.pending_first + record.delay <= now || place % 64 == 0 {
            let time = if place % 640 == 0 { LARGEST + 1 } else { now };
            self.call(counts, "timer", |record| timer(record, time));
        }
    }

    fn frames_and_confirmations(&mut self, counts: &mut Counts, turn: u64) {
        let (room, part, sequence) = (self.room, turn % 250, turn / 250);
        if (room + 7 * turn) % 500 == 0 {
            self.call(counts, "immediate", immediate);
        }
        if part == 100 + room % 50 || part == 160 && room % 10 == 0 {
            let count = if room % 2 == 1 { 20 } else { 2 };
            let delay = if room % 3 == 0 { 10_000 } else { 30_000 };
            self.call(counts, "threshold", |record| threshold(record, sequence, count, delay, 1 + room % 4));
        }
        if part == 170 && room % 200 == 7 {
            self.call(counts, "threshold", |record| threshold(record, sequence + 1, 2, 500, 1));
        }
        if let Some((largest, _)) = self.told.filter(|(_, heard_at)| turn >= *heard_at) {
            self.call(counts, "confirm", |record| confirm(record, largest));
            self.told = None;
        }
        if (room + turn) % 1000 == 999 {
            let end = self.record().largest.map_or(0, |largest| largest + 1);
            self.call(counts, "confirm", |record| confirm(record, end + 5));
        }
    }

    fn write(&mut self, counts: &mut Counts, turn: u64, now: u64) {
        let cause = self.record().cause;
        let place = self.room + turn;
        if cause == NOT_DUE && place % 400 != 5 {
            return;
        }
        let mut frame = [0; FRAME];
        let room = if place % 32 == 9 { 4 } else { FRAME };
        let with_counts = self.room % 4 != 3;
        let mut outcome = (ACCEPTED, 0);
        self.call(counts, "write", |record| {
            let (result, length, next) = write(record, now, with_counts, &mut frame[..room]);
            outcome = (result, length);
            (result, next)
        });
        let (result, length) = outcome;
        if result != ACCEPTED {
            return;
        }
        counts.causes[cause as usize] += 1;
        counts.bytes += length;
        for byte in &frame[..length] {
            counts.digest = (counts.digest ^ u64::from(*byte)).wrapping_mul(0x100_0000_01b3);
        }
        if self.room % 2 == 0 && self.told.is_none() {
            self.told = self.record().acknowledged.map(|largest| (largest, turn + 8));
        }
    }
}

/// No room sees another, so the order of rooms matters to the digest alone: it goes by turns, and in a turn by rooms.
pub fn run(out: impl Write) -> Result<(), String> {
    let mut counts = Counts { results: BTreeMap::new(), causes: [0; 6], bytes: 0, digest: 0xcbf2_9ce4_8422_2325 };
    let mut rooms: Vec<Room> = (0..ROOMS).map(Room::opened).collect();
    for turn in 0..TURNS {
        let now = turn * TURN_US + 2000;
        for room in &mut rooms {
            room.packet(&mut counts, turn);
            room.timer(&mut counts, turn, now);
            room.frames_and_confirmations(&mut counts, turn);
            room.write(&mut counts, turn, now);
        }
    }
    print(&counts, out).map_err(|error| error.to_string())
}

fn print(counts: &Counts, mut out: impl Write) -> io::Result<()> {
    let all = ROOMS * RECORD_BYTES;
    writeln!(out, "{ROOMS} rooms in one process, a record of {RECORD_BYTES} bytes each: {all} bytes for all\n")?;
    writeln!(out, "call       record        calls  accepted  refused, by number")?;
    for (name, form) in CALLS {
        let of_call = || counts.results.iter().filter(|((call, _), _)| *call == name);
        let calls: u64 = of_call().map(|(_, times)| times).sum();
        let accepted = counts.results[&(name, ACCEPTED)];
        let refused = of_call().filter(|((_, result), _)| *result != ACCEPTED);
        let refused: Vec<String> = refused.map(|((_, result), times)| format!("{result}: {times}")).collect();
        writeln!(out, "{name:<10} {form:<9} {calls:>9} {accepted:>9}  {}", refused.join(", "))?;
    }
    writeln!(out, "\nacknowledgments by cause")?;
    for (cause, (words, times)) in CAUSES.iter().zip(counts.causes).enumerate() {
        writeln!(out, "{times:>9}  {cause} {words}")?;
    }
    writeln!(out, "{:>9}  bytes in all, digest {:016x}\n", counts.bytes, counts.digest)?;
    writeln!(out, "Every room's record is that of the same calls by value, byte for byte; so are all answers and frames.\n")
}
