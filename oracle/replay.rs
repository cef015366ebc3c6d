//! Document 01, "The replay program", with the marks of document 02, No. 2: event records of 24 bytes to lines.

use crate::numbers::high_first;
use crate::receiver::{immediate, open, packet, timer, write};
use crate::record::{Mark, Record};
use crate::refusals::{ENDS, OTHER_TYPE};
use std::io::{self, Read, Write};

pub const EVENT: usize = 24;
pub const PACKET: u8 = 1;
pub const TIMER: u8 = 2;
pub const WRITE: u8 = 3;
pub const IMMEDIATE: u8 = 4;
pub const ELICITING: u8 = 1;
pub const CE: u8 = 2;
pub const ECT0: u8 = 4;
pub const ECT1: u8 = 8;

/// "In the replay's flags 2 is CE, 4 ECT(0), 8 ECT(1); with several set, the first of these counts." (document 02, No. 2)
pub fn mark_of(flags: u8) -> Mark {
    if flags & CE != 0 {
        Mark::Ce
    } else if flags & ECT0 != 0 {
        Mark::Ect0
    } else if flags & ECT1 != 0 {
        Mark::Ect1
    } else {
        Mark::Unmarked
    }
}

/// A replay under way: it answers each event with the result and the cause afterwards.
pub struct Replay {
    record: Option<Record>,
    room: [u8; 1200],
}

impl Replay {
    /// "It opens with T 1,000, R 3, 25 ms, minimum 1,000; room is 1,200."
    pub fn new() -> Replay {
        Replay { record: Some(open(1000, 3, 25, 1000).1), room: [0; 1200] }
    }

    /// "An unknown kind prints 3; a short last record prints 2."
    pub fn event(&mut self, event: &[u8]) -> (u64, u64) {
        let record = self.record.take().expect("every event hands the record back");
        let (result, next) = if event.len() < EVENT { (ENDS, record) } else { self.whole_event(record, event) };
        let cause = next.cause;
        self.record = Some(next);
        (result, cause)
    }

    /// "kind (1 packet, 2 timer, 3 write, 4 IMMEDIATE_ACK), flags (1 ack-eliciting, 2 CE; others ignored), six ignored bytes,
    /// number, time, each 8 bytes high first"; 4 and 8 are no longer ignored
    fn whole_event(&mut self, record: Record, event: &[u8]) -> (u64, Record) {
        let (kind, flags) = (event[0], event[1]);
        let number = high_first(&event[8..16]);
        let time = high_first(&event[16..24]);
        match kind {
            PACKET => packet(record, number, time, flags & ELICITING != 0, mark_of(flags)),
            TIMER => timer(record, time),
            WRITE => {
                let (result, _, next) = write(record, time, false, &mut self.room);
                (result, next)
            }
            IMMEDIATE => immediate(record),
            _ => (OTHER_TYPE, record),
        }
    }
}

/// "Each line has record index from 0, result (0 accepted, else refusal), cause afterwards."
pub fn run(mut input: impl Read, output: impl Write) -> io::Result<()> {
    let mut output = io::BufWriter::with_capacity(1 << 16, output);
    let mut replay = Replay::new();
    let mut buffer = vec![0; EVENT << 12];
    let mut index = 0;
    loop {
        let filled = fill(&mut input, &mut buffer)?;
        for event in buffer[..filled].chunks(EVENT) {
            let (result, cause) = replay.event(event);
            writeln!(output, "{index} {result} {cause}")?;
            index += 1;
        }
        if filled < buffer.len() {
            return output.flush();
        }
    }
}

/// Reads until the buffer is full or the input ends.
fn fill(input: &mut impl Read, buffer: &mut [u8]) -> io::Result<usize> {
    let mut filled = 0;
    while filled < buffer.len() {
        match input.read(&mut buffer[filled..]) {
            Ok(0) => break,
            Ok(count) => filled += count,
            Err(error) if error.kind() == io::ErrorKind::Interrupted => {}
            Err(error) => return Err(error),
        }
    }
    Ok(filled)
}
