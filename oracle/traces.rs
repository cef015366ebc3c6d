//! Made-up traces for the replay program: lines of every quality, and damaged inputs.

use crate::numbers::LARGEST;
use crate::random::Random;
use crate::receiver::NOT_DUE;
use crate::replay::{Replay, CE, ELICITING, EVENT, IMMEDIATE, PACKET, TIMER, WRITE};

/// How a line behaves. Chances are in thousandths for each number sent.
#[derive(Clone, Copy)]
struct Line {
    name: &'static str,
    first: u64,
    events: usize,
    /// The number never comes.
    loss: u64,
    /// The number is held back, and comes later.
    late: u64,
    /// An earlier number comes again.
    repeat: u64,
    /// A run of CE marks begins or ends.
    run: u64,
    /// Nothing comes for a while, and the timer is looked at.
    silence: u64,
    /// The numbers jump ahead, further than the window.
    jump: u64,
    /// The packet is not ack-eliciting.
    quiet: u64,
    /// An ACK is written if one is due.
    heed: u64,
    /// Something unusual: IMMEDIATE_ACK, a write that is not due, numbers and times too large, a clock that goes back.
    odd: u64,
}

const GOOD: Line = Line {
    name: "in order",
    first: 0,
    events: 200,
    loss: 0,
    late: 0,
    repeat: 0,
    run: 0,
    silence: 20,
    jump: 0,
    quiet: 50,
    heed: 950,
    odd: 5,
};

const LINES: [Line; 11] = [
    GOOD,
    Line { name: "loss", loss: 60, ..GOOD },
    Line { name: "reordering", late: 120, repeat: 30, ..GOOD },
    Line { name: "congestion runs", loss: 10, run: 150, quiet: 200, ..GOOD },
    Line { name: "silences", silence: 250, quiet: 400, ..GOOD },
    Line { name: "jumps", loss: 20, late: 80, repeat: 80, jump: 15, ..GOOD },
    Line { name: "all faults", loss: 80, late: 80, repeat: 40, run: 60, silence: 40, jump: 3, quiet: 200, odd: 60, ..GOOD },
    Line { name: "near 2^62 - 1", first: LARGEST - 150, loss: 40, late: 80, repeat: 40, run: 40, odd: 40, ..GOOD },
    Line { name: "counts above 1,000", events: 2400, quiet: 10, heed: 150, silence: 0, odd: 0, ..GOOD },
    Line { name: "few ack-eliciting", events: 2400, loss: 1, quiet: 995, silence: 0, ..GOOD },
    Line { name: "many ranges", events: 3000, loss: 300, late: 100, heed: 20, silence: 1, ..GOOD },
];

/// What came out of one made-up input: what kind it is, and its bytes.
pub struct Input {
    pub name: &'static str,
    pub bytes: Vec<u8>,
}

/// A trace in the making. It follows the replay, for a host writes when an ACK is due.
struct Trace {
    bytes: Vec<u8>,
    replay: Replay,
    cause: u64,
    now: u64,
    next: u64,
    in_run: bool,
    held: Vec<u64>,
}

impl Trace {
    fn event(&mut self, random: &mut Random, kind: u8, flags: u8, number: u64) {
        let start = self.bytes.len();
        // bytes that are to be ignored hold anything, and so do the flags that make nothing due, ECT(0) and ECT(1) among them
        self.bytes.extend_from_slice(&[kind, flags | (random.any() as u8 & !(ELICITING | CE))]);
        self.bytes.extend(random.bytes(6));
        self.bytes.extend_from_slice(&number.to_be_bytes());
        self.bytes.extend_from_slice(&self.now.to_be_bytes());
        self.cause = self.replay.event(&self.bytes[start..]).1;
    }

    fn packet(&mut self, random: &mut Random, line: &Line, number: u64) {
        let eliciting = if random.chance(line.quiet) { 0 } else { ELICITING };
        let marked = if self.in_run { CE } else { 0 };
        self.event(random, PACKET, eliciting | marked, number);
        if self.cause != NOT_DUE && random.chance(line.heed) {
            self.now += random.below(400);
            self.event(random, WRITE, 0, 0);
        }
    }

    /// One number is sent: it comes, comes later, or never.
    fn send(&mut self, random: &mut Random, line: &Line) {
        self.now = self.now.saturating_add(random.below(3000));
        let number = self.next;
        self.next = self.next.saturating_add(1);
        if random.chance(line.late) {
            self.held.push(number);
        } else if !random.chance(line.loss) {
            self.packet(random, line, number);
        }
        if !self.held.is_empty() && random.chance(200) {
            let place = random.below(self.held.len() as u64) as usize;
            let late = self.held.swap_remove(place);
            self.packet(random, line, late);
        }
        if random.chance(line.repeat) {
            let again = self.next.saturating_sub(1 + random.below(20));
            self.packet(random, line, again);
        }
    }

    fn weather(&mut self, random: &mut Random, line: &Line) {
        if random.chance(line.run) {
            self.in_run = !self.in_run;
        }
        if random.chance(line.silence) {
            self.silence(random);
        }
        if random.chance(line.jump) {
            self.next = self.next.saturating_add(random.between(900, 5000));
            let old = self.next.saturating_sub(random.between(1000, 1050));
            self.held.push(old);
        }
        if random.chance(line.odd) {
            self.oddity(random, line);
        }
    }

    fn silence(&mut self, random: &mut Random) {
        for _ in 0..random.between(1, 4) {
            self.now += random.one_of(&[1_000, 12_000, 24_999, 25_000, 40_000]);
            self.event(random, TIMER, 0, 0);
            if self.cause != NOT_DUE && random.chance(900) {
                self.event(random, WRITE, 0, 0);
            }
        }
    }

    fn oddity(&mut self, random: &mut Random, line: &Line) {
        let (now, any) = (self.now, random.any());
        match random.below(7) {
            0 => self.event(random, IMMEDIATE, 0, any),
            1 => self.event(random, WRITE, 0, any),
            2 => self.packet(random, line, LARGEST + 1 + any % 3),
            3 => self.next = self.next.saturating_add(any >> random.between(2, 64).min(63)).min(LARGEST - 100),
            4 => self.now = now.saturating_sub(random.below(60_000)),
            5 => {
                self.now = random.one_of(&[LARGEST, LARGEST + 1, u64::MAX]);
                let kind = random.one_of(&[PACKET, TIMER, WRITE, IMMEDIATE]);
                let number = self.next;
                self.event(random, kind, ELICITING, number);
                self.now = now;
            }
            _ => self.event(random, (any % 256) as u8, 3, any),
        }
    }
}

fn trace(random: &mut Random, line: &Line) -> Vec<u8> {
    let mut trace = Trace {
        bytes: Vec::new(),
        replay: Replay::new(),
        cause: NOT_DUE,
        now: 0,
        next: line.first,
        in_run: false,
        held: Vec::new(),
    };
    if random.chance(100) {
        let kind = random.one_of(&[IMMEDIATE, WRITE, TIMER]);
        trace.event(random, kind, 0, 0);
    }
    while trace.bytes.len() < line.events * EVENT {
        trace.weather(random, line);
        trace.send(random, line);
    }
    trace.bytes
}

const DAMAGES: [&str; 6] = ["bytes flipped", "cut at a byte", "random bytes", "unknown kinds", "empty", "23 bytes"];

fn damage(random: &mut Random, name: &'static str, mut bytes: Vec<u8>) -> Vec<u8> {
    let length = bytes.len();
    match name {
        "bytes flipped" => {
            for _ in 0..random.between(1, 40) {
                bytes[random.below(length as u64) as usize] ^= 1 << random.below(8);
            }
        }
        "cut at a byte" => bytes.truncate(random.below(length as u64) as usize),
        "random bytes" => bytes = random.bytes(length / 4),
        "unknown kinds" => {
            for event in bytes.chunks_mut(EVENT) {
                if random.chance(200) {
                    event[0] = random.any() as u8;
                }
            }
        }
        "empty" => bytes.clear(),
        _ => bytes.truncate(EVENT - 1),
    }
    bytes
}

/// The input with this place in the list: every kind comes in turn.
pub fn input(random: &mut Random, index: usize) -> Input {
    let kinds = LINES.len() + DAMAGES.len();
    let kind = index % kinds;
    if kind < LINES.len() {
        return Input { name: LINES[kind].name, bytes: trace(random, &LINES[kind]) };
    }
    let name = DAMAGES[kind - LINES.len()];
    let line = LINES[random.below(8) as usize];
    let whole = trace(random, &line);
    Input { name, bytes: damage(random, name, whole) }
}

/// A trace of a long hearing, for the timing: a million events, 24 MB.
pub fn large() -> Vec<u8> {
    let line = Line { events: 1_000_000, loss: 10, late: 10, repeat: 2, run: 10, silence: 10, odd: 0, ..GOOD };
    trace(&mut Random::from_seed(24), &line)
}
