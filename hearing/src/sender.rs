//! The sending host: it numbers packets, hears ACKs through the library's loss list, sends lost sound again, and has a rate control
//! decide how large pictures are and when their packets leave. Reports come off the stream in pieces and are added up.
//!
//! Simplified here: a loss is told by the packet threshold alone (RFC 9002, 6.1.1; no time threshold, 6.1.2); where nothing is heard
//! for a probe timeout (6.2) a probe is sent; lost pictures are not sent again; sound and its repetitions leave at once.

use crate::control::{Control, Leave, News, Receipt, Sent};
use crate::media::{packets_of, picture_bytes, Content, SOUND_BYTES};
use lumbixet::{ranges_room, Ack, Frequency, Losses, Pieces, Profile, FREQUENCY_ROOM, HELD};
use std::collections::VecDeque;

/// A packet that leaves: its number, its bytes, what it carries, and the frame of its own if it has one.
pub struct Leaving {
    pub number: u64,
    pub bytes: u64,
    pub content: Content,
    pub frame: Vec<u8>,
}

/// The sums of the reports that were read.
#[derive(Default)]
pub struct Reported {
    pub reports: u64,
    pub received: u64,
    pub late: u64,
    pub lost: u64,
}

struct Kept {
    sent: Sent,
    content: Content,
    bytes_before: u64,
}

struct Waiting {
    at: u64,
    bytes: u64,
    content: Content,
}

pub struct Sender {
    seed: u64,
    control: Box<dyn Control>,
    losses: Losses,
    kept: Vec<Kept>,
    bytes_sent: u64,
    bytes_passed: u64,
    waiting: VecDeque<Waiting>,
    heard_at: u64,
    probed_at: u64,
    smallest: f64,
    smoothed: f64,
    variation: f64,
    marked: u64,
    longest_delay: u64,
    stream: Vec<u8>,
    pub reported: Reported,
    /// Of each loss: when the packet was sent, and how long after that it was told.
    pub told: Vec<(u64, u64)>,
}

impl Sender {
    /// `longest_delay` is what the receiver may wait with an ACK.
    pub fn new(control: Box<dyn Control>, seed: u64, longest_delay: u64) -> Sender {
        Sender {
            seed,
            control,
            losses: Losses::open(),
            kept: vec![],
            bytes_sent: 0,
            bytes_passed: 0,
            waiting: VecDeque::new(),
            heard_at: 0,
            probed_at: 0,
            smallest: f64::INFINITY,
            smoothed: 100_000.0,
            variation: 50_000.0,
            marked: 0,
            longest_delay,
            stream: vec![],
            reported: Reported::default(),
            told: vec![],
        }
    }

    pub fn rate(&self) -> f64 {
        self.control.rate()
    }

    fn in_flight(&self) -> u64 {
        self.bytes_sent - self.bytes_passed
    }

    fn leave(&mut self, bytes: u64, content: Content, now: u64) -> Option<Leaving> {
        // Where 1,024 numbers are held and the oldest is outstanding, nothing leaves until an ACK is heard.
        let number = self.losses.send().ok()?;
        let picture = if let Content::Picture { picture, .. } = content { Some(picture) } else { None };
        let sent = Sent { number, time: now, bytes, picture };
        self.kept.push(Kept { sent, content, bytes_before: self.bytes_sent });
        self.bytes_sent += bytes;
        if picture.is_some() {
            let in_flight = self.in_flight();
            self.control.sent(sent, in_flight);
        }
        Some(Leaving { number, bytes, content, frame: vec![] })
    }

    pub fn sound(&mut self, piece: u64, now: u64) -> Option<Leaving> {
        self.leave(SOUND_BYTES, Content::Sound { piece }, now)
    }

    /// An ACK_FREQUENCY frame in a packet of its own.
    pub fn rules(&mut self, frame: Frequency, now: u64) -> Option<Leaving> {
        let mut buffer = [0; FREQUENCY_ROOM];
        let written = frame.write(&mut buffer).expect("it fits").to_vec();
        let content = Content::Rules { sequence: frame.sequence, reordering: frame.reordering };
        self.leave(60, content, now).map(|leaving| Leaving { frame: written, ..leaving })
    }

    /// A picture is encoded at the rate of now, cut into packets, and waits to leave.
    pub fn picture(&mut self, picture: u64, now: u64) {
        let sizes = packets_of(picture_bytes(self.control.rate(), self.seed, picture));
        let (of, bytes) = (sizes.len() as u64, sizes.iter().sum());
        let (delay, takes) = self.control.schedule(picture, bytes, of, now);
        for (index, bytes) in sizes.into_iter().enumerate() {
            let index = index as u64;
            let at = now + delay + if of > 1 { takes * index / (of - 1) } else { 0 };
            self.waiting.push_back(Waiting { at, bytes, content: Content::Picture { picture, index, of } });
        }
    }

    /// When the next packet of a picture may leave, if one waits and may.
    pub fn wake(&self, now: u64) -> Option<u64> {
        let next = self.waiting.front()?;
        match self.control.may_leave(next.bytes, self.in_flight(), now.max(next.at)) {
            Leave::Now => Some(next.at.max(now)),
            Leave::At(time) => Some(time.max(next.at)),
            Leave::AfterAnAck => None,
        }
    }

    /// The next packet of a picture, if it may leave now.
    pub fn next(&mut self, now: u64) -> Option<Leaving> {
        if self.wake(now)? > now {
            return None;
        }
        let Waiting { bytes, content, .. } = self.waiting.pop_front()?;
        self.leave(bytes, content, now)
    }

    /// Every 10 ms: a probe where nothing was heard for a probe timeout, and the rate control hears of the silence.
    pub fn tick(&mut self, now: u64) -> Option<Leaving> {
        if self.losses.states().outstanding == 0 {
            self.heard_at = now;
            return None;
        }
        self.control.silent(now - self.heard_at, now);
        let timeout = self.smoothed + (4.0 * self.variation).max(1000.0) + self.longest_delay as f64;
        if (now - self.heard_at.max(self.probed_at)) as f64 >= timeout {
            self.probed_at = now;
            return self.leave(60, Content::Ping, now);
        }
        None
    }

    /// An ACK is heard, with what came beside it. Lost sound leaves again at once.
    pub fn heard(&mut self, ack: &[u8], receipts: &[Receipt], now: u64) -> Vec<Leaving> {
        let (mut acknowledged, mut lost) = ([0; HELD], [0; HELD]);
        let (changes, _) = self.losses.heard(ack, &mut acknowledged, &mut lost).expect("the receiver's ACK is in order");
        let packets = |numbers: &[u64]| numbers.iter().map(|number| self.kept[*number as usize].sent).collect::<Vec<_>>();
        let (acknowledged, lost) = (packets(changes.acknowledged), packets(changes.lost));
        let mut ranges = vec![0; ranges_room(ack.len())];
        let (frame, _) = Ack::read(ack, &mut ranges).expect("it was read before");
        self.heard_at = now;
        let largest = &self.kept[frame.largest as usize];
        self.bytes_passed = self.bytes_passed.max(largest.bytes_before + largest.sent.bytes);
        // RFC 9002, 5.3: a sample where the largest number is newly acknowledged, less the delay that the frame names
        let mut rtt = self.smoothed;
        if acknowledged.last().map_or(false, |packet| packet.number == frame.largest) {
            let whole = (now - largest.sent.time) as f64;
            self.smallest = self.smallest.min(whole);
            rtt = (whole - (8 * frame.delay).min(self.longest_delay) as f64).max(self.smallest);
            self.variation = 0.75 * self.variation + 0.25 * (self.smoothed - rtt).abs();
            self.smoothed = 0.875 * self.smoothed + 0.125 * rtt;
        }
        let ce = frame.counts.map_or(0, |counts| counts.ce);
        let marked = ce - self.marked;
        self.marked = ce;
        self.told.extend(lost.iter().map(|packet| (packet.time, now - packet.time)));
        let (in_flight, smoothed, smallest) = (self.in_flight(), self.smoothed, self.smallest.min(self.smoothed));
        let news = News { acknowledged: &acknowledged, lost: &lost, marked, rtt, smoothed, smallest, in_flight, receipts };
        self.control.heard(&news, now);
        let again: Vec<Content> = lost.iter().map(|packet| self.kept[packet.number as usize].content).collect();
        again
            .into_iter()
            .filter(|content| matches!(content, Content::Sound { .. }))
            .filter_map(|content| self.leave(SOUND_BYTES, content, now))
            .collect()
    }

    /// Bytes of the stream of reports come in, cut as the packets were. Each report stands behind its length, four bytes.
    pub fn stream(&mut self, bytes: &[u8]) {
        self.stream.extend(bytes);
        while self.stream.len() >= 4 {
            let length = u32::from_be_bytes([self.stream[0], self.stream[1], self.stream[2], self.stream[3]]) as usize;
            if self.stream.len() < 4 + length {
                return;
            }
            let report: Vec<u8> = self.stream.drain(..4 + length).skip(4).collect();
            self.report(&report);
        }
    }

    /// One report, handed on in parts of 64 bytes with room for four entries.
    fn report(&mut self, report: &[u8]) {
        let (mut pieces, mut room) = (Pieces::open(Profile::One), [0; 64]);
        for part in report.chunks(64) {
            let mut left = part;
            while !left.is_empty() {
                let taken = pieces.take(left, &mut room);
                assert_eq!(taken.refusal, None, "a report of the tracker is in order");
                left = &left[taken.bytes..];
            }
        }
        let header = pieces.end().expect("a report of the tracker is in order");
        self.reported.reports += 1;
        self.reported.received += header.received;
        self.reported.late += header.late;
        self.reported.lost += header.lost;
    }
}
