//! The frames that are read, and what each field of them says.

use lumbixet::{Ack, Counts, Frequency, Immediate, Refusal};

use crate::fields::{table, Field, Walk};
use crate::hex;
use crate::json::{array, number, Object};
use crate::output::Output;
use crate::text::{counted, grouped};

/// Room for the ranges of most frames; one with more is read again.
const FEW: usize = 64;

/// The type of an ACK frame with the counts of marks.
const ACK_WITH_COUNTS: u64 = 3;

pub enum Frame {
    Frequency(Frequency),
    Immediate,
    /// Largest number and delay, smallest and largest of each range, and of type 03 the counts of marks.
    Ack(u64, u64, Vec<u64>, Option<Counts>),
}

/// The frame at the start and its length: the first reader that knows the type decides.
pub fn read(bytes: &[u8]) -> Result<(Frame, usize), Refusal> {
    let used = |rest: &[u8]| bytes.len() - rest.len();
    match Immediate::read(bytes) {
        Err(Refusal::OtherType) => {}
        answer => return answer.map(|(_, rest)| (Frame::Immediate, used(rest))),
    }
    match Frequency::read(bytes) {
        Err(Refusal::OtherType) => {}
        answer => return answer.map(|(frame, rest)| (Frame::Frequency(frame), used(rest))),
    }
    match read_ack(bytes, FEW) {
        // all of the frame was checked before, so it has as many ranges as it says
        Err(Refusal::NoRoom) => read_ack(bytes, 2 * (1 + range_count(bytes))),
        answer => answer,
    }
}

fn read_ack(bytes: &[u8], room: usize) -> Result<(Frame, usize), Refusal> {
    let mut ranges = vec![0; room];
    let (ack, rest) = Ack::read(bytes, &mut ranges)?;
    Ok((Frame::Ack(ack.largest, ack.delay, ack.pairs.to_vec(), ack.counts), bytes.len() - rest.len()))
}

fn range_count(bytes: &[u8]) -> usize {
    let mut walk = Walk::new(bytes);
    for name in ["type", "largest", "delay"] {
        walk.next(name);
    }
    walk.next("range count").map_or(0, |count| count as usize)
}

/// The fields of the frame that the bytes begin with.
pub fn walk(bytes: &[u8]) -> Walk<'_> {
    let mut walk = Walk::new(bytes);
    let kind = walk.next("type");
    match Frequency::read(bytes) {
        Err(Refusal::OtherType) => {}
        _ => {
            for name in ["sequence", "ack-eliciting threshold", "requested maximum delay", "reordering threshold"] {
                walk.next(name);
            }
            return walk;
        }
    }
    if let Err(Refusal::OtherType) = Ack::read(bytes, &mut []) {
        return walk;
    }
    walk.next("largest");
    walk.next("delay");
    let count = walk.next("range count");
    walk.next("first range");
    walk.pairs(count.unwrap_or(0), "gap", "range length");
    if kind == Some(ACK_WITH_COUNTS) {
        for name in ["ECT(0) count", "ECT(1) count", "CE count"] {
            walk.next(name);
        }
    }
    walk
}

/// What a field of an ACK_FREQUENCY frame says.
fn says_frequency(field: &Field) -> String {
    let value = grouped(field.value);
    match (field.name, field.value) {
        ("type", _) => "ACK_FREQUENCY".to_string(),
        ("ack-eliciting threshold", _) => format!("{value}: due by count when more ack-eliciting packets have come"),
        ("requested maximum delay", _) => format!("{value} us"),
        ("reordering threshold", 0) => "0: never due by order".to_string(),
        ("reordering threshold", 1) => "1: due by order as RFC 9000 has it".to_string(),
        ("reordering threshold", _) => format!("{value}: due by order when a missing number lies so far below"),
        _ => value,
    }
}

/// What a field of an ACK frame says; fields 4, 6, 8 .. are ranges, and the gaps stand between them.
fn says_ack(index: usize, field: &Field, pairs: &[u64]) -> String {
    let value = grouped(field.value);
    let numbers = |first: u64, last: u64, word: &str| match last - first {
        0 => format!("{value}: {} {word}", grouped(first)),
        _ => format!("{value}: {} to {} {word}", grouped(first), grouped(last)),
    };
    match (field.name, index) {
        ("type", _) if field.value == ACK_WITH_COUNTS => "ACK with the counts of marks".to_string(),
        ("type", _) => "ACK".to_string(),
        ("ECT(0) count" | "ECT(1) count" | "CE count", _) => format!("{value} packets so far"),
        ("delay", _) => format!("{value} in the unit that its writer announced"),
        ("range count", _) => format!("{value} behind the first range"),
        ("first range" | "range length", _) => numbers(pairs[index - 4], pairs[index - 3], "came"),
        ("gap", _) => numbers(pairs[index - 2] + 1, pairs[index - 5] - 1, "missing"),
        _ => value,
    }
}

pub fn put(frame: &Frame, bytes: &[u8], base: usize, output: &mut Output) {
    let walk = walk(bytes);
    let (name, rows) = match frame {
        Frame::Immediate => {
            ("IMMEDIATE_ACK", walk.rows(base, |_, _| "IMMEDIATE_ACK: the sender asks for an acknowledgment".into()))
        }
        Frame::Frequency(_) => ("ACK_FREQUENCY", walk.rows(base, |_, field| says_frequency(field))),
        Frame::Ack(_, _, pairs, _) => ("ACK", walk.rows(base, |index, field| says_ack(index, field, pairs))),
    };
    output.put(&format!("{name}, {} at byte {base}\n{}", counted(bytes.len(), "byte"), table(&rows)));
}

/// The object of a frame, with its bytes.
pub fn object(frame: &Frame, bytes: &[u8], object: Object) -> Object {
    let start = |name: &str| object.text("frame", name).number("length", bytes.len()).text("bytes", &hex::digits(bytes, ""));
    match frame {
        Frame::Immediate => start("IMMEDIATE_ACK"),
        Frame::Frequency(frame) => {
            let object = start("ACK_FREQUENCY").number("sequence", frame.sequence).number("threshold", frame.threshold);
            object.number("delay_us", frame.delay.0).number("reordering", frame.reordering)
        }
        Frame::Ack(largest, delay, pairs, counts) => {
            let ranges = array(pairs.chunks_exact(2).map(|pair| format!("[{},{}]", number(pair[0]), number(pair[1]))));
            let object = start("ACK").number("largest", *largest).number("delay", *delay).plain("ranges", ranges);
            counts.iter().fold(object, |object, Counts { ect0, ect1, ce }| {
                object.number("ect0", *ect0).number("ect1", *ect1).number("ce", *ce)
            })
        }
    }
}
