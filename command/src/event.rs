//! An event record, and the receiver's answer to it (document 01, "The replay program").

use lumbixet::{Mark, Micros, Millis, Packet, Receiver, Refusal};

/// How many bytes a record has.
pub const RECORD: usize = 24;

/// "room is 1,200"
const ROOM: usize = 1200;

/// "kind (1 packet, 2 timer, 3 write, 4 IMMEDIATE_ACK)"
pub const PACKET: u8 = 1;
pub const TIMER: u8 = 2;
pub const WRITE: u8 = 3;
pub const IMMEDIATE: u8 = 4;

/// A whole record.
#[derive(Clone, Copy)]
pub struct Event {
    pub kind: u8,
    pub eliciting: bool,
    pub mark: Mark,
    pub number: u64,
    pub time: u64,
}

impl Event {
    /// "flags (1 ack-eliciting, 2 CE; others ignored), six ignored bytes, number, time, each 8 bytes high first"; by document
    /// 02, No. 2, "2 is CE, 4 ECT(0), 8 ECT(1); with several set, the first of these counts"
    pub fn read(record: &[u8; RECORD]) -> Event {
        let [kind, flags, _, _, _, _, _, _, a, b, c, d, e, f, g, h, i, j, k, l, m, n, o, p] = *record;
        Event {
            kind,
            eliciting: flags & 1 != 0,
            mark: mark_of(flags),
            number: u64::from_be_bytes([a, b, c, d, e, f, g, h]),
            time: u64::from_be_bytes([i, j, k, l, m, n, o, p]),
        }
    }
}

fn mark_of(flags: u8) -> Mark {
    let marks = [(2, Mark::Ce), (4, Mark::Ect0), (8, Mark::Ect1)];
    marks.iter().find(|(flag, _)| flags & flag != 0).map_or(Mark::None, |(_, mark)| *mark)
}

/// What came of a record.
pub struct Told {
    pub index: u64,
    /// The record; where it is short, how many bytes it has.
    pub event: Result<Event, usize>,
    /// 0 accepted, else the refusal.
    pub result: u64,
    /// Why an acknowledgment was due before, and why one is due after it.
    pub before: u64,
    pub cause: u64,
    /// The length of the acknowledgment that was written.
    pub written: usize,
}

/// A hearing under way.
pub struct Hearing {
    receiver: Receiver,
    index: u64,
    room: [u8; ROOM],
}

impl Hearing {
    /// "It opens with T 1,000, R 3, 25 ms, minimum 1,000"
    pub fn open() -> Hearing {
        let receiver = Receiver::open(1000, 3, Millis(25), Micros(1000)).unwrap_or_default();
        Hearing { receiver, index: 0, room: [0; ROOM] }
    }

    /// The answer to a whole record.
    #[inline]
    pub fn answer(&mut self, record: &[u8; RECORD]) -> Told {
        let event = Event::read(record);
        let before = self.receiver.record().cause;
        let mut written = 0;
        let answer = match event.kind {
            PACKET => self.receiver.packet(packet(event)).map(|_| ()),
            TIMER => self.receiver.timer(Micros(event.time)).map(|_| ()),
            WRITE => self.receiver.write(Micros(event.time), &mut self.room).map(|frame| written = frame.len()),
            IMMEDIATE => self.receiver.immediate().map(|_| ()),
            // "An unknown kind prints 3"
            _ => Err(Refusal::OtherType),
        };
        self.told(Ok(event), answer, before, written)
    }

    /// "a short last record prints 2"
    pub fn short(&mut self, bytes: usize) -> Told {
        self.told(Err(bytes), Err(Refusal::Ends), self.receiver.record().cause, 0)
    }

    /// The acknowledgment that the last record had written.
    pub fn frame(&self, told: &Told) -> &[u8] {
        &self.room[..told.written]
    }

    pub fn receiver(&self) -> &Receiver {
        &self.receiver
    }

    fn told(&mut self, event: Result<Event, usize>, answer: Result<(), Refusal>, before: u64, written: usize) -> Told {
        let index = self.index;
        self.index += 1;
        Told {
            index,
            event,
            result: answer.map_or_else(Refusal::number, |()| 0),
            before,
            cause: self.receiver.record().cause,
            written,
        }
    }
}

fn packet(event: Event) -> Packet {
    Packet { number: event.number, time: Micros(event.time), eliciting: event.eliciting, mark: event.mark }
}
