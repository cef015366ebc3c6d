//! One hearing: sender, line and room, event by event in virtual time. The same setting gives the same events in every run.

use crate::control::{Control, PICTURE_EVERY};
use crate::line::{Fate, Line, Nature};
use crate::media::{Content, PLAYED_AFTER, SOUND_EVERY};
use crate::ndtc::Ndtc;
use crate::room::{Back, Room};
use crate::scream::Scream;
use crate::sender::{Leaving, Sender};
use lumbixet::{Frequency, Micros};
use std::cmp::Reverse;
use std::collections::BinaryHeap;

/// Twelve times 256 pieces of sound, so that each tracker is full in the end.
pub const PIECES: u64 = 12 * 256;
pub const LENGTH: u64 = PIECES * SOUND_EVERY;
/// When the frame that is in force is sent, and when an older one arrives behind it.
pub const RULES_AT: u64 = 100_000;
pub const STALE_AT: u64 = 10_000_000;

/// A setting: who controls the rate, over which line, and what the sender asks of the receiver.
#[derive(Clone, Copy)]
pub struct Setting {
    pub name: &'static str,
    pub scream: bool,
    pub line: Nature,
    pub threshold: u64,
    pub delay: u64,
    pub reordering: u64,
    pub stale_reordering: u64,
}

/// What came of it.
pub struct Outcome {
    /// Of each loss that was told: when the packet was sent, how long after that.
    pub told: Vec<(u64, u64)>,
    /// When each piece of sound arrived first, if it did.
    pub sound: Vec<Option<u64>>,
    /// The encoder's rate at each picture, in bits a second.
    pub rates: Vec<f64>,
    pub causes: [u64; 6],
    pub stale: u64,
    /// The reordering threshold in force at the end.
    pub reordering: u64,
    /// What the tracker's reports came to at the sender: reports, received, late, lost.
    pub reported: [u64; 4],
    /// What happened, a line each: the time in microseconds, what, and its numbers; a rate is in thousandths of a bit a second.
    pub events: Vec<String>,
}

enum Event {
    Sound(u64),
    Picture(u64),
    Rules { sequence: u64, reordering: u64 },
    Leave,
    Tick,
    Arrives { number: u64, content: Content, frame: Vec<u8>, marked: bool },
    Timer,
    Back(Back),
}

struct Run {
    now: u64,
    count: u64,
    events: BinaryHeap<Reverse<(u64, u64, usize)>>,
    kept: Vec<Option<Event>>,
    setting: Setting,
    sender: Sender,
    line: Line,
    room: Room,
    outcome: Outcome,
}

/// The hearing of a setting, with the receiver as it is or with the fault of the complaint.
pub fn hear(setting: Setting, seed: u64, faulty: bool) -> Outcome {
    let control: Box<dyn Control> = if setting.scream { Box::new(Scream::new()) } else { Box::new(Ndtc::new(seed)) };
    let outcome = Outcome {
        told: vec![],
        sound: vec![None; PIECES as usize],
        rates: vec![],
        causes: [0; 6],
        stale: 0,
        reordering: 0,
        reported: [0; 4],
        events: vec![],
    };
    let mut run = Run {
        now: 0,
        count: 0,
        events: BinaryHeap::new(),
        kept: vec![],
        setting,
        sender: Sender::new(control, seed, setting.delay),
        line: Line::new(setting.line, seed),
        room: Room::open(faulty),
        outcome,
    };
    run.at(0, Event::Sound(0));
    run.at(5_000, Event::Picture(0));
    run.at(RULES_AT, Event::Rules { sequence: 5, reordering: setting.reordering });
    run.at(STALE_AT, Event::Rules { sequence: 4, reordering: setting.stale_reordering });
    run.at(10_000, Event::Tick);
    run.all()
}

impl Run {
    fn at(&mut self, time: u64, event: Event) {
        self.events.push(Reverse((time, self.count, self.kept.len())));
        self.kept.push(Some(event));
        self.count += 1;
    }

    fn all(mut self) -> Outcome {
        while let Some(Reverse((time, _, place))) = self.events.pop() {
            if time > LENGTH + 4_000_000 {
                break;
            }
            self.now = time;
            if let Some(event) = self.kept[place].take() {
                self.happens(event);
            }
        }
        self.room.report(self.now, true);
        let rest = self.room.rest();
        self.sender.stream(&rest);
        let reported = &self.sender.reported;
        self.outcome.reported = [reported.reports, reported.received, reported.late, reported.lost];
        let [reports, received, late, lost] = self.outcome.reported;
        self.note("reported", &[reports, received, late, lost]);
        self.outcome.told = std::mem::take(&mut self.sender.told);
        self.outcome.causes = self.room.causes;
        self.outcome.stale = self.room.stale;
        self.outcome.reordering = self.room.reordering();
        self.outcome
    }

    fn note(&mut self, what: &str, numbers: &[u64]) {
        let numbers: Vec<String> = numbers.iter().map(u64::to_string).collect();
        self.outcome.events.push(format!("{} {what} {}", self.now, numbers.join(" ")));
    }

    fn happens(&mut self, event: Event) {
        let now = self.now;
        match event {
            Event::Sound(piece) => {
                let leaving = self.sender.sound(piece, now);
                self.out(leaving);
                if piece + 1 < PIECES {
                    self.at(now + SOUND_EVERY, Event::Sound(piece + 1));
                }
            }
            Event::Picture(picture) => {
                let rate = self.sender.rate();
                self.outcome.rates.push(rate);
                self.note("rate", &[(1000.0 * rate) as u64]);
                self.sender.picture(picture, now);
                self.at(now, Event::Leave);
                if now + PICTURE_EVERY < LENGTH {
                    self.at(now + PICTURE_EVERY, Event::Picture(picture + 1));
                }
            }
            Event::Rules { sequence, reordering } => {
                let Setting { threshold, delay, .. } = self.setting;
                let leaving = self.sender.rules(Frequency { sequence, threshold, delay: Micros(delay), reordering }, now);
                self.out(leaving);
            }
            Event::Leave => self.leave(),
            Event::Tick => {
                let leaving = self.sender.tick(now);
                self.out(leaving);
                self.room.report(now, false);
                self.at(now + 10_000, Event::Tick);
            }
            Event::Arrives { number, content, frame, marked } => {
                if let Content::Sound { piece } = content {
                    self.outcome.sound[piece as usize].get_or_insert(now);
                    self.note("sound", &[piece]);
                }
                let back = self.room.arrives(number, content, &frame, marked, now);
                self.answer(back);
            }
            Event::Timer => {
                if self.room.wake().map_or(false, |wake| wake <= now) {
                    let back = self.room.timer(now);
                    self.answer(back);
                }
            }
            Event::Back(back) => {
                let before = self.sender.told.len();
                let again = self.sender.heard(&back.ack, &back.receipts, now);
                for told in before..self.sender.told.len() {
                    let (sent, after) = self.sender.told[told];
                    self.note("told", &[sent, after]);
                }
                self.sender.stream(&back.stream);
                for leaving in again {
                    self.out(Some(leaving));
                }
                self.leave();
            }
        }
    }

    /// What may leave now leaves, and the next time is noted.
    fn leave(&mut self) {
        while let Some(leaving) = self.sender.next(self.now) {
            self.out(Some(leaving));
        }
        if let Some(wake) = self.sender.wake(self.now) {
            self.at(wake.max(self.now + 1), Event::Leave);
        }
    }

    fn out(&mut self, leaving: Option<Leaving>) {
        let Some(Leaving { number, bytes, content, frame }) = leaving else { return };
        match self.line.send(self.now, bytes) {
            Fate::Lost => self.note("lost", &[number]),
            Fate::Arrives { at, marked } => self.at(at, Event::Arrives { number, content, frame, marked }),
        }
    }

    /// An ACK goes back over a line that has room and is interrupted with the other; else the timer is noted.
    fn answer(&mut self, back: Option<Back>) {
        if let Some(back) = back {
            self.note("ack", &[back.cause]);
            if self.line.interrupted(self.now) {
                self.room.again(&back.stream);
            } else {
                self.at(self.now + self.setting.line.delay, Event::Back(back));
            }
        } else if let Some(wake) = self.room.wake() {
            self.at(wake.max(self.now), Event::Timer);
        }
    }
}

impl Outcome {
    /// Pieces that were there in time, that came too late, and that never came, by the simulation's own clock.
    pub fn sound_counts(&self) -> [u64; 3] {
        let mut counts = [0; 3];
        for (piece, arrived) in self.sound.iter().enumerate() {
            let deadline = piece as u64 * SOUND_EVERY + PLAYED_AFTER;
            counts[arrived.map_or(2, |at| usize::from(at > deadline))] += 1;
        }
        counts
    }
}
