//! The story of examples/room.c, told through this interface: it must print what examples/room.expected says.

use lumbixet::*;
use std::fmt::Write;

#[path = "room/reports.rs"]
mod reports;

const ROOM: usize = 64;

/// A receiver, and the sentences told of it so far.
struct Room {
    receiver: Receiver,
    told: String,
}

impl Room {
    fn say(&mut self, words: &str) {
        self.told.push_str(words);
    }

    /// Ends the sentence on a call with what came of it.
    fn came_to(&mut self, answer: Result<Option<Cause>, Refusal>) {
        self.say(&match answer {
            Err(refusal) => refused(refusal),
            Ok(None) => " Nothing is due.\n".to_string(),
            Ok(Some(cause)) => format!(" An acknowledgment is due: {cause}.\n"),
        });
    }

    fn rules(&mut self) {
        let gap = match self.receiver.reordering_threshold() {
            0 => "never for a gap".to_string(),
            reordering => format!("for a gap that reaches {reordering}"),
        };
        let (threshold, Micros(delay)) = (self.receiver.ack_eliciting_threshold(), self.receiver.delay());
        self.say(&format!("An acknowledgment is due for more than {threshold} packets, {gap}, or after {delay} microseconds.\n"));
    }

    fn packet(&mut self, number: u64, time: u64, mark: Mark) {
        let marked = match mark {
            Mark::None => "",
            Mark::Ect1 => " marked ECT(1)",
            Mark::Ect0 => " marked ECT(0)",
            Mark::Ce => " with a congestion mark",
        };
        self.say(&format!("At {time} packet {number} arrives{marked}."));
        let before = self.receiver.clone();
        let answer = self.receiver.packet(Packet { number, time: Micros(time), eliciting: true, mark });
        assert!(answer.is_ok() || self.receiver == before, "a refused call changed the record");
        self.came_to(answer);
    }

    fn timer(&mut self, time: u64) {
        self.say(&format!("At {time} the timer is looked at."));
        let answer = self.receiver.timer(Micros(time));
        self.came_to(answer);
    }

    /// Writes an acknowledgment, with the counts of marks or without, and reads it back as the sender will.
    fn acknowledge(&mut self, time: u64, counts: bool, room: usize) {
        let mut buffer = [0; ROOM];
        let mut ranges = [0; ranges_room(ROOM)];
        let with_counts = if counts { " with counts" } else { "" };
        self.say(&format!("At {time} an acknowledgment{with_counts} is written into {room} bytes"));
        let (now, lent) = (Micros(time), &mut buffer[..room]);
        let written = if counts { self.receiver.write_with_counts(now, lent) } else { self.receiver.write(now, lent) };
        let frame = match written {
            Ok(frame) => frame,
            Err(refusal) => return self.say(&format!(".{}", refused(refusal))),
        };
        self.say(&format!(":{}.\n", hex(frame)));
        let (ack, rest) = Ack::read(frame, &mut ranges).expect("what was written is read");
        assert!(rest.is_empty());
        let arrived: Vec<_> = ack.ranges().map(|range| format!(" {} to {} arrived", range.start(), range.end())).collect();
        let since = 8 * ack.delay;
        self.say(&format!("  Read back, it says {since} microseconds after packet {}:{}.\n", ack.largest, arrived.join(",")));
        if let Some(Counts { ect0, ect1, ce }) = ack.counts {
            self.say(&format!("  Marked so far: {ect0} with ECT(0), {ect1} with ECT(1), {ce} with CE.\n"));
        }
    }

    fn hear(&mut self, frame: Frequency) {
        match self.receiver.threshold(frame) {
            Ok(Heard::Changed) => self.came_to(Ok(self.receiver.cause())),
            Ok(Heard::Stale) => self.say(" It is stale: nothing changed.\n"),
            Err(refusal) => self.say(&refused(refusal)),
        }
    }

    fn other_rules(&mut self) {
        let mut buffer = [0; FREQUENCY_ROOM];
        let sent = Frequency { sequence: 5, threshold: 2, delay: Micros(5000), reordering: 0 };
        let bytes = sent.write(&mut buffer).expect("there is room");
        self.say(&format!("The sender's frame is{}.\n", hex(bytes)));
        let (frame, rest) = Frequency::read(bytes).expect("what was written is read");
        assert_eq!((frame, rest.len()), (sent, 0));
        let Frequency { sequence, threshold, delay: Micros(delay), reordering } = frame;
        self.say(&format!("  Read, it has sequence {sequence}, threshold {threshold}, delay {delay} and "));
        self.say(&format!("reordering threshold {reordering}.\nThe frame is heard."));
        self.hear(frame);
        self.rules();
        self.say("A frame with sequence 4 asks for reordering threshold 1.");
        self.hear(Frequency { sequence: 4, reordering: 1, ..frame });
        self.rules();
        self.say("A frame with sequence 6 asks for a delay of 16384000.");
        self.hear(Frequency { sequence: 6, delay: Micros(16_384_000), ..frame });
    }

    fn asked(&mut self) {
        let mut buffer = [0; 1];
        let bytes = Immediate.write(&mut buffer).expect("there is room");
        assert_eq!(Immediate::read(bytes), Ok((Immediate, &[][..])));
        self.say(&format!("The sender's frame is{}.", hex(bytes)));
        let answer = self.receiver.immediate();
        self.came_to(answer);
    }

    /// The sender acknowledges the packet that carried an ACK: it knows of the numbers up to that ACK's largest.
    fn confirmed(&mut self, largest: u64) {
        self.say(&format!("The packet with the acknowledgment of {largest} is itself acknowledged."));
        let answer = self.receiver.confirm(largest);
        self.say(&match answer {
            Ok(()) => format!(" Numbers below {} are reported no more.\n", self.receiver.confirmed()),
            Err(refusal) => refused(refusal),
        });
    }
}

fn refused(refusal: Refusal) -> String {
    format!(" Refused with {}: {refusal}.\n", refusal.number())
}

fn hex(bytes: &[u8]) -> String {
    bytes.iter().fold(String::new(), |mut text, byte| {
        write!(text, " {byte:02x}").expect("a string takes it");
        text
    })
}

#[test]
fn the_room() {
    let receiver = Receiver::open(1000, 3, Millis(25), Micros(1000)).expect("the opening is in order");
    let mut room = Room { receiver, told: "A packet is lost\n".to_string() };
    room.rules();
    for (number, time) in [(0, 1000), (1, 2000), (3, 4000), (4, 5000), (5, 6000), (5, 6100)] {
        room.packet(number, time, Mark::None);
    }
    room.acknowledge(6400, false, ROOM);

    room.say("\nThe sender asks for other rules\n");
    room.other_rules();

    room.say("\nThe timer runs\n");
    room.packet(6, 20000, Mark::None);
    assert_eq!(room.receiver.wake(), Some(Micros(25000)));
    room.timer(24999);
    room.timer(25000);
    assert_eq!(room.receiver.wake(), None);
    room.acknowledge(25000, false, ROOM);

    room.say("\nThe lost packet comes after all\n");
    for (number, time) in [(2, 26000), (7, 27000), (8, 28000)] {
        room.packet(number, time, Mark::None);
    }
    room.acknowledge(28000, false, ROOM);

    room.say("\nThe network is congested, and the sender asks\n");
    room.packet(9, 29000, Mark::Ce);
    room.acknowledge(29000, false, 4);
    room.acknowledge(29000, false, 5);
    room.asked();
    room.acknowledge(29400, false, ROOM);

    room.say("\nThe sender confirms an acknowledgment\n");
    room.packet(12, 30000, Mark::None);
    room.packet(13, 31000, Mark::None);
    room.acknowledge(31000, false, ROOM);
    room.confirmed(9);
    room.acknowledge(31500, false, ROOM);
    room.packet(9, 32000, Mark::None);
    room.confirmed(13);
    room.packet(14, 33000, Mark::None);
    room.acknowledge(33000, false, ROOM);
    room.confirmed(15);

    room.say("\nThe sender wants the marks counted\n");
    room.packet(15, 34000, Mark::Ect0);
    room.packet(16, 34500, Mark::Ce);
    room.acknowledge(34500, true, 7);
    room.acknowledge(34500, true, 8);
    room.packet(16, 34600, Mark::Ce);
    room.packet(18, 35000, Mark::Ect1);
    room.acknowledge(35000, true, ROOM);

    room.say("\nThe report\n");
    room.report();

    room.say("\nMany small objects are lost, and some receivers are old\n");
    for maximum in [ENTRIES, OLD_ENTRIES, ENTRIES + 1] {
        room.say(&reports::lost(maximum));
    }

    room.say("\nThe sender has two groups\n");
    room.groups();

    room.say("\nThe operator's screen asks for the last object that did not come\n");
    room.newest_lost();
    assert_eq!(room.told, include_str!("../../../examples/room.expected"));
}
