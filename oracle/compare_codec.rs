//! Numbers on the wire and the three frames: whole, in longer forms, damaged at every byte, cut at every length.

use crate::archive::*;
use crate::frames::{
    put_frequency, put_immediate, ranges_into, read_ack, read_ack_as, read_ack_into, read_frequency, read_frequency_as,
    read_immediate, Ack, Counts, Frequency,
};
use crate::made_up::{argument, up_to};
use crate::made_up_bytes::{append_in_form, append_in_some_form, damaged};
use crate::numbers::{put, read, width, LARGEST};
use crate::random::Random;
use crate::refusals::{ACCEPTED, OTHER_TYPE};
use crate::tally::{Call, Lent, Tally};

pub fn round(random: &mut Random, tally: &mut Tally) -> Result<(), String> {
    compare_read_number(random, tally)?;
    compare_put_number(random, tally)?;
    compare_put_frequency(random, tally)?;
    compare_put_immediate(random, tally)?;
    let frame = match random.below(6) {
        0 => frequency_frame(random),
        1 => immediate_frame(random),
        2 => (0..random.below(24)).map(|_| random.any() as u8 & 0x43).collect(),
        _ => ack_frame(random),
    };
    compare_readers(random, tally, &frame)?;
    damaged(random, &frame, |random, bytes| compare_readers(random, tally, bytes))
}

fn frequency_frame(random: &mut Random) -> Vec<u8> {
    let mut bytes = Vec::new();
    append_in_form(&mut bytes, 0xaf, if random.chance(150) { random.one_of(&[4, 8]) } else { 2 });
    for _ in 0..4 {
        let value = up_to(random, LARGEST);
        append_in_some_form(random, &mut bytes, value);
    }
    append_tail(random, &mut bytes);
    bytes
}

fn immediate_frame(random: &mut Random) -> Vec<u8> {
    let mut bytes = random.one_of(&[&[0x1f][..], &[0x40, 0x1f], &[0x80, 0, 0, 0x1f]]).to_vec();
    append_tail(random, &mut bytes);
    bytes
}

/// What follows a frame: nothing, or a few bytes.
fn append_tail(random: &mut Random, bytes: &mut Vec<u8>) {
    let count = random.below(8).saturating_sub(4) as usize;
    bytes.extend(random.bytes(count));
}

/// An ACK frame whose ranges fit above number 0, or nearly; its count is now and then another one.
fn ack_frame(random: &mut Random) -> Vec<u8> {
    let count = random.one_of(&[0, 1, 2, 5, 63, 64, 70]);
    let largest = if random.chance(500) { up_to(random, LARGEST) } else { random.below(4 * count + 8) };
    ack_frame_of(random, largest, count, |random| if random.chance(980) { random.below(2) } else { up_to(random, largest) })
}

/// An ACK frame of either type with so many ranges after the first, whose gaps and lengths are made by the caller.
pub fn ack_frame_of(random: &mut Random, largest: u64, count: u64, step: impl Fn(&mut Random) -> u64) -> Vec<u8> {
    let said = if random.chance(50) { random.one_of(&[count + 1, LARGEST, LARGEST / 2 + 1]) } else { count };
    let kind = random.between(2, 3);
    let mut bytes = Vec::new();
    append_in_form(&mut bytes, kind, if random.chance(20) { 2 } else { 1 });
    let tail = if kind == 3 { 3 } else { 0 };
    for value in [largest, up_to(random, LARGEST), said] {
        append_in_some_form(random, &mut bytes, value);
    }
    for _ in 0..2 * count + 1 {
        let value = step(random);
        append_in_some_form(random, &mut bytes, value);
    }
    for _ in 0..tail {
        let value = up_to(random, LARGEST);
        append_in_some_form(random, &mut bytes, value);
    }
    append_tail(random, &mut bytes);
    bytes
}

fn compare_read_number(random: &mut Random, tally: &mut Tally) -> Result<(), String> {
    let length = random.below(12) as usize;
    let bytes = random.bytes(length);
    for at in (0..length + 2).chain([usize::MAX]) {
        let papers = match read(&bytes, at) {
            Ok(number) => {
                let shortest = u64::from(number.shortest);
                Number { result: 0, value: number.value, next: number.next as u64, shortest }
            }
            Err(result) => Number { result, ..Number::default() },
        };
        let archive = unsafe { lumbixet_read_number(bytes.as_ptr(), length, at) };
        tally.compare(Call { name: "read_number", result: papers.result, given: &(&bytes, at) }, papers, archive)?;
    }
    Ok(())
}

fn put_of(found: Result<usize, u64>) -> Put {
    match found {
        Ok(next) => Put { result: 0, next: next as u64 },
        Err(result) => Put { result, next: 0 },
    }
}

/// A writer is given the same memory twice: once by the papers, once by the archive.
fn compare_put(
    tally: &mut Tally,
    name: &'static str,
    given: &dyn std::fmt::Debug,
    mut lent: Lent,
    papers: impl FnOnce(&mut [u8]) -> Result<usize, u64>,
    archive: impl FnOnce(*mut u8, usize) -> Put,
) -> Result<(), String> {
    let mut other = Lent { memory: lent.memory.clone(), length: lent.length };
    let wanted = put_of(papers(lent.buffer()));
    let found = archive(other.buffer().as_mut_ptr(), other.length);
    tally.compare(Call { name, result: wanted.result, given }, (wanted, lent.memory), (found, other.memory))
}

fn compare_put_number(random: &mut Random, tally: &mut Tally) -> Result<(), String> {
    let value = argument(random);
    let length = random.below(14) as usize;
    for at in (0..length + 2).chain([usize::MAX]) {
        let lent = Lent::new(random, length);
        let papers = |buffer: &mut [u8]| put(buffer, at, value);
        let archive = |buffer, length| unsafe { lumbixet_put_number(buffer, length, at, value) };
        compare_put(tally, "put_number", &(length, at, value), lent, papers, archive)?;
    }
    Ok(())
}

fn compare_put_frequency(random: &mut Random, tally: &mut Tally) -> Result<(), String> {
    let values = [argument(random), argument(random), argument(random), argument(random)];
    let length = random.below(40) as usize;
    let lent = Lent::new(random, length);
    let [sequence, threshold, delay, reordering] = values;
    let papers = |buffer: &mut [u8]| put_frequency(buffer, values);
    let archive = |buffer, length| unsafe { lumbixet_put_frequency(buffer, length, sequence, threshold, delay, reordering) };
    compare_put(tally, "put_frequency", &(length, values), lent, papers, archive)
}

fn compare_put_immediate(random: &mut Random, tally: &mut Tally) -> Result<(), String> {
    let length = random.below(4) as usize;
    let lent = Lent::new(random, length);
    let archive = |buffer, length| unsafe { lumbixet_put_immediate(buffer, length) };
    compare_put(tally, "put_immediate", &length, lent, put_immediate, archive)
}

/// All three readers on the same bytes, and those that are handed the type on the bytes behind it.
fn compare_readers(random: &mut Random, tally: &mut Tally, bytes: &[u8]) -> Result<(), String> {
    compare_read_frequency(tally, bytes)?;
    compare_read_immediate(tally, bytes)?;
    compare_read_ack(random, tally, bytes)?;
    compare_readers_as(tally, bytes)
}

/// The type that stands there, or any. It draws by the bytes alone, so that what the other comparisons draw, and so come to see,
/// is what it was without it.
fn compare_readers_as(tally: &mut Tally, bytes: &[u8]) -> Result<(), String> {
    let seed = bytes.iter().fold(bytes.len() as u64, |seed, byte| seed.wrapping_mul(257).wrapping_add(u64::from(*byte)));
    let random = &mut Random::from_seed(seed);
    let (kind, next) = read(bytes, 0).map_or((0, 0), |number| (number.value, number.next));
    let kind = if random.chance(100) { random.one_of(&[0x02, 0x03, 0x1f, 0xaf, 0x40af, u64::MAX]) } else { kind };
    let behind = &bytes[next..];
    let papers = frequency_of(read_frequency_as(kind, behind));
    let archive = unsafe { lumbixet_read_frequency_as(kind, behind.as_ptr(), behind.len()) };
    tally.compare(Call { name: "read_frequency_as", result: papers.result, given: &(kind, behind) }, papers, archive)?;
    let room = room_for(random, read_ack_as(kind, behind));
    let mut papers_lent: Vec<u64> = (0..room + 4).map(|_| random.any()).collect();
    let mut archive_lent = papers_lent.clone();
    let papers = ack_of(ranges_into(read_ack_as(kind, behind), &mut papers_lent[2..2 + room]));
    let lent = archive_lent[2..].as_mut_ptr();
    let archive = unsafe { lumbixet_read_ack_as(kind, behind.as_ptr(), behind.len(), lent, room) };
    let call = Call { name: "read_ack_as", result: papers.result, given: &(kind, behind, room) };
    tally.compare(call, (papers, papers_lent), (archive, archive_lent))
}

fn frequency_of(found: Result<Frequency, u64>) -> FrequencyFrame {
    match found {
        Ok(frame) => FrequencyFrame {
            result: 0,
            sequence: frame.sequence,
            threshold: frame.threshold,
            delay: frame.delay,
            reordering: frame.reordering,
            used: frame.used as u64,
        },
        Err(result) => FrequencyFrame { result, ..FrequencyFrame::default() },
    }
}

fn compare_read_frequency(tally: &mut Tally, bytes: &[u8]) -> Result<(), String> {
    let papers = frequency_of(read_frequency(bytes));
    let shortest = [papers.sequence, papers.threshold, papers.delay, papers.reordering].map(width).iter().sum::<usize>();
    let longer = papers.result == ACCEPTED && papers.used as usize > 2 + shortest;
    tally.note("an accepted frame with a longer field", longer);
    let longer_type = bytes.starts_with(&[0x80, 0, 0, 0xaf]) || bytes.starts_with(&[0xc0, 0, 0, 0, 0, 0, 0, 0xaf]);
    tally.note("3 for ACK_FREQUENCY's type in a longer form", longer_type && papers.result == OTHER_TYPE);
    let archive = unsafe { lumbixet_read_frequency(bytes.as_ptr(), bytes.len()) };
    tally.compare(Call { name: "read_frequency", result: papers.result, given: &bytes }, papers, archive)
}

fn compare_read_immediate(tally: &mut Tally, bytes: &[u8]) -> Result<(), String> {
    let papers = match read_immediate(bytes) {
        Ok(used) => ImmediateFrame { result: 0, used: used as u64 },
        Err(result) => ImmediateFrame { result, used: 0 },
    };
    let archive = unsafe { lumbixet_read_immediate(bytes.as_ptr(), bytes.len()) };
    tally.compare(Call { name: "read_immediate", result: papers.result, given: &bytes }, papers, archive)
}

/// The lent slice has room for all ranges, for one number less, for others behind, or any room.
fn compare_read_ack(random: &mut Random, tally: &mut Tally, bytes: &[u8]) -> Result<(), String> {
    let room = room_for(random, read_ack(bytes));
    compare_read_ack_in(random, tally, bytes, room).map(|_| ())
}

fn room_for(random: &mut Random, found: Result<Ack, u64>) -> usize {
    let needed = found.map_or(0, |ack| 2 * ack.ranges.len());
    let any = random.below(20) as usize;
    random.one_of(&[needed, needed, needed.saturating_sub(1), needed + 1, needed + 5, any])
}

/// Gives what both found.
pub fn compare_read_ack_in(random: &mut Random, tally: &mut Tally, bytes: &[u8], room: usize) -> Result<AckFrame, String> {
    let mut papers_lent: Vec<u64> = (0..room + 4).map(|_| random.any()).collect();
    let mut archive_lent = papers_lent.clone();
    let papers = ack_of(read_ack_into(bytes, &mut papers_lent[2..2 + room]));
    let archive = unsafe { lumbixet_read_ack(bytes.as_ptr(), bytes.len(), archive_lent[2..].as_mut_ptr(), room) };
    let call = Call { name: "read_ack", result: papers.result, given: &(bytes, room) };
    tally.compare(call, (papers, papers_lent), (archive, archive_lent))?;
    Ok(papers)
}

/// The archive's answer that stands for a frame of the papers: without counts they are 0.
fn ack_of(found: Result<Ack, u64>) -> AckFrame {
    let ack = match found {
        Ok(ack) => ack,
        Err(result) => return AckFrame { result, ..AckFrame::default() },
    };
    let Counts { ect0, ect1, ce } = ack.counts.unwrap_or_default();
    AckFrame {
        result: ACCEPTED,
        largest: ack.largest,
        delay: ack.delay,
        ranges: ack.ranges.len() as u64,
        used: ack.used as u64,
        counts: u64::from(ack.counts.is_some()),
        ect0,
        ect1,
        ce,
    }
}
