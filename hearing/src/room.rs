//! The receiving host: the library's receiver and tracker. Beside it the receiver of the complaint: the same calls, but the
//! reordering threshold of a stale frame is stored.

use crate::control::Receipt;
use crate::media::{Content, PLAYED_AFTER, SOUND_EVERY};
use lumbixet::{raw, Cause, Frequency, Heard, Mark, Micros, Millis, Packet, Receiver, Tracker, ACK_ROOM, REPORT_ROOM, TRACKED};
use std::collections::BTreeMap;

/// What goes back to the sender: an ACK frame, what was measured, and bytes of the stream of reports.
pub struct Back {
    pub cause: u64,
    pub ack: Vec<u8>,
    pub receipts: Vec<Receipt>,
    pub stream: Vec<u8>,
}

/// The arrivals of one picture.
struct Arrivals {
    first: u64,
    last: u64,
    came: u64,
    of: u64,
}

pub struct Room {
    receiver: Receiver,
    faulty: bool,
    pub causes: [u64; 6],
    pub stale: u64,
    trackers: Vec<Tracker>,
    reported: usize,
    pictures: BTreeMap<u64, Arrivals>,
    receipts: Vec<Receipt>,
    stream: Vec<u8>,
}

/// A call that a host in order does not have refused.
fn never<T>(answer: Result<T, lumbixet::Refusal>, call: &str) -> T {
    answer.unwrap_or_else(|refusal| panic!("{call} was refused: {refusal}"))
}

impl Room {
    pub fn open(faulty: bool) -> Room {
        let receiver = never(Receiver::open(1, 1, Millis(25), Micros(1000)), "open");
        let (causes, pictures) = ([0; 6], BTreeMap::new());
        Room { receiver, faulty, causes, stale: 0, trackers: vec![], reported: 0, pictures, receipts: vec![], stream: vec![] }
    }

    /// A packet arrives: whatever is due goes back.
    pub fn arrives(&mut self, number: u64, content: Content, frame: &[u8], marked: bool, now: u64) -> Option<Back> {
        let mark = if marked { Mark::Ce } else { Mark::Ect0 };
        let packet = Packet { number, time: Micros(now), eliciting: true, mark };
        if let Err(refusal) = self.receiver.packet(packet) {
            // A packet that the line brought late may lie below the window; nothing else can be refused here.
            assert_eq!(refusal, lumbixet::Refusal::BelowWindow);
            return None;
        }
        match content {
            Content::Sound { piece } => self.sound(piece, now),
            Content::Picture { picture, of, .. } => self.picture(picture, of, now),
            Content::Rules { .. } => self.rules(frame),
            Content::Ping => {}
        }
        self.due(now)
    }

    /// When to look at the timer.
    pub fn wake(&self) -> Option<u64> {
        self.receiver.wake().map(|Micros(time)| time)
    }

    pub fn timer(&mut self, now: u64) -> Option<Back> {
        never(self.receiver.timer(Micros(now)), "timer");
        self.due(now)
    }

    fn due(&mut self, now: u64) -> Option<Back> {
        let cause = self.receiver.cause().map(Cause::number)?;
        self.causes[cause as usize] += 1;
        let mut buffer = [0; ACK_ROOM];
        let ack = never(self.receiver.write_with_counts(Micros(now), &mut buffer), "write").to_vec();
        Some(Back { cause, ack, receipts: std::mem::take(&mut self.receipts), stream: std::mem::take(&mut self.stream) })
    }

    fn rules(&mut self, frame: &[u8]) {
        let (asked, _) = never(Frequency::read(frame), "reading ACK_FREQUENCY");
        if never(self.receiver.threshold(asked), "threshold") == Heard::Stale {
            self.stale += 1;
            if self.faulty {
                // the fault of the complaint: "ignored", and the threshold is in use underneath
                self.receiver = Receiver::from_record(raw::Receiver { reordering: asked.reordering, ..*self.receiver.record() });
            }
        }
    }

    /// The reordering threshold in force.
    pub fn reordering(&self) -> u64 {
        self.receiver.reordering_threshold()
    }

    fn sound(&mut self, piece: u64, now: u64) {
        let place = piece as usize / TRACKED;
        while self.trackers.len() <= place {
            let first = (self.trackers.len() * TRACKED) as u64;
            self.trackers.push(never(Tracker::open(first, Micros(SOUND_EVERY)), "tracker open"));
        }
        let deadline = Micros(piece * SOUND_EVERY + PLAYED_AFTER);
        never(self.trackers[place].arrived(piece, Micros(now), Some(deadline)), "tracker arrived");
    }

    /// The tracker of 256 pieces makes its report when no piece of them can come any more; it goes back over the stream, behind its
    /// length, with the ACKs to come. In the end the last one does, whether it is full or not.
    pub fn report(&mut self, now: u64, at_the_end: bool) {
        while self.reported < self.trackers.len() {
            let last = ((self.reported + 1) * TRACKED) as u64 * SOUND_EVERY;
            if !at_the_end && now < last + 2_000_000 {
                return;
            }
            let (mut records, mut bytes) = (vec![[0; 16]; TRACKED], [0; REPORT_ROOM]);
            let made = never(self.trackers[self.reported].report(Micros(now), Micros(last), &mut records), "tracker report");
            let written = never(made.header.write(&mut bytes, made.records), "writing a report");
            self.stream.extend((written.bytes.len() as u32).to_be_bytes());
            self.stream.extend(written.bytes);
            self.reported += 1;
        }
    }

    /// Bytes of the stream that did not get through go back to its front.
    pub fn again(&mut self, bytes: &[u8]) {
        self.stream.splice(0..0, bytes.iter().copied());
    }

    /// What is left of the stream when the hearing is over.
    pub fn rest(&mut self) -> Vec<u8> {
        std::mem::take(&mut self.stream)
    }

    fn picture(&mut self, picture: u64, of: u64, now: u64) {
        let arrivals = self.pictures.entry(picture).or_insert(Arrivals { first: now, last: now, came: 0, of });
        arrivals.last = now;
        arrivals.came += 1;
        if arrivals.came == arrivals.of {
            self.receipts.push(Receipt { picture, took: arrivals.last - arrivals.first });
            self.pictures.remove(&picture);
        }
    }
}
