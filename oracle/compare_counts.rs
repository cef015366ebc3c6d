//! Document 02, No. 2: acknowledgments of type 03. They are written at every room beside those of type 02, read back, cut at
//! every byte, and given a type in a longer form.

use crate::archive::*;
use crate::compare_codec::compare_read_ack_in;
use crate::compare_receiver::{compare_write_in, time, Choice};
use crate::made_up::consistent;
use crate::made_up_bytes::{append_in_form, longer_forms};
use crate::numbers::{append, width, LARGEST};
use crate::random::Random;
use crate::receiver::write;
use crate::record::{Mark, Record, Totals};
use crate::refusals::{ACCEPTED, ENDS, NO_ROOM, OTHER_TYPE};
use crate::tally::Tally;

/// The least room in which every one of them is tried, however short the frame is.
const EVERY_ROOM: usize = 60;

/// For each width of a count a number of it.
const LARGEST_OF_WIDTH: [u64; 4] = [63, 16_383, 1_073_741_823, LARGEST];

pub fn round(random: &mut Random, tally: &mut Tally) -> Result<(), String> {
    compare_frame(random, tally)?;
    if random.chance(30) {
        let record = Record { totals: totals_of_widths(random), ..consistent(random) };
        write_at_every_room(random, tally, &raw_of(&record))?;
    }
    Ok(())
}

/// A count whose shortest form has some width.
fn count(random: &mut Random) -> u64 {
    let most = random.one_of(&LARGEST_OF_WIDTH);
    most - random.below(60)
}

fn totals_of_widths(random: &mut Random) -> Totals {
    Totals { ect0: count(random), ect1: count(random), ce: count(random), unmarked: count(random) }
}

/// Which total alone makes a record inconsistent.
pub fn note_totals(tally: &mut Tally, record: &Record) {
    let names = [
        (Mark::Ect0, "1 for nothing but a total of ECT(0) above its limit"),
        (Mark::Ect1, "1 for nothing but a total of ECT(1) above its limit"),
        (Mark::Ce, "1 for nothing but a total of CE above its limit"),
        (Mark::Unmarked, "1 for nothing but a total of unmarked ones above its limit"),
    ];
    for (mark, name) in names {
        let mut mended = record.clone();
        *mended.totals.of(mark) = 0;
        tally.note(name, !record.consistent() && mended.consistent() && mended.totals != record.totals);
    }
}

/// "Each total is defined from the list of accepted packets, and while none stands at its limit the four add up to the number
/// accepted." (document 02, No. 2)
pub fn judge_totals(last: &Receiver, accepted: &[Mark]) -> Result<(), String> {
    let of = |mark: Mark| accepted.iter().filter(|carried| **carried == mark).count() as u64;
    let counted = [of(Mark::Ect0), of(Mark::Ect1), of(Mark::Ce), of(Mark::Unmarked)];
    let totals = [last.total_ect0, last.total_ect1, last.total_ce, last.total_unmarked];
    if totals != counted || totals.iter().sum::<u64>() != accepted.len() as u64 {
        return Err(format!("totals {totals:?} after accepted packets with these marks: {accepted:?}"));
    }
    Ok(())
}

/// What a packet's mark came to: its total rose, stays at its limit, or counts nothing where the packet is refused.
pub fn note_mark(tally: &mut Tally, record: &Record, papers: &Answer, eliciting: bool, ecn: u64) {
    let carried = mark_of_ecn(ecn);
    let before = *record.totals.clone().of(carried);
    let after = *record_of(&papers.next).totals.of(carried);
    let accepted = papers.result == ACCEPTED;
    tally.note("a total that reaches 2^62 - 1", accepted && before + 1 == LARGEST && after == LARGEST);
    tally.note("a total that stays at 2^62 - 1", accepted && before == LARGEST && after == LARGEST);
    tally.note("a mark counted of a packet that is not ack-eliciting", accepted && !eliciting && after > before);
    tally.note("a mark with other bits above it", accepted && ecn > 3);
    tally.note("ECT(0) counted", accepted && carried == Mark::Ect0 && after > before);
    tally.note("ECT(1) counted", accepted && carried == Mark::Ect1 && after > before);
    tally.note("CE counted", accepted && carried == Mark::Ce && after > before);
    tally.note("a packet without a mark counted", accepted && carried == Mark::Unmarked && after > before);
}

/// From no room to room for all ranges and more, as 02 and as 03; each write goes on from the same record.
pub fn write_at_every_room(random: &mut Random, tally: &mut Tally, given: &Receiver) -> Result<(), String> {
    let record = record_of(given);
    let time = time(random, &record).min(LARGEST);
    let (_, all, _) = write(record.clone(), time, true, &mut [0; 1200]);
    for room in 0..EVERY_ROOM.max(all + 3) {
        let plain = compare_write_in(random, tally, given, &record, Choice { time, counts: false, room })?;
        let wrote = compare_write_in(random, tally, given, &record, Choice { time, counts: true, room })?;
        if record.largest.is_some() {
            judge_room(&record, time, room, wrote.result)?;
        }
        tally.note("9 for 03 in a room that holds 02", plain.result == ACCEPTED && wrote.result == NO_ROOM);
        let tail = tail_of(&record.totals);
        let fewer = wrote.result == ACCEPTED && (wrote.length as usize) < plain.length as usize + tail;
        tally.note("03 with fewer ranges than 02 in the same room", fewer);
    }
    tally.note("02 and 03 at every room", true);
    Ok(())
}

fn tail_of(totals: &Totals) -> usize {
    width(totals.ect0) + width(totals.ect1) + width(totals.ce)
}

/// 9 exactly below the first range with the counts: type, largest, delay, a count of no further range, the first range, tail.
fn judge_room(record: &Record, time: u64, room: usize, result: u64) -> Result<(), String> {
    let (smallest, largest) = record.ranges()[0];
    let delay = time.saturating_sub(record.arrived) / 8;
    let least = 1 + width(largest) + width(delay) + 1 + width(largest - smallest) + tail_of(&record.totals);
    if (result == NO_ROOM) != (room < least) {
        return Err(format!("03 in room {room}, where {least} bytes are needed, gives {result}: {record:?}"));
    }
    Ok(())
}

/// A written frame is read as the record's newest ranges, with the totals at that write as its counts.
pub fn read_back(random: &mut Random, tally: &mut Tally, record: &Record, counts: bool, frame: &[u8]) -> Result<(), String> {
    let ranges = record.ranges();
    let found = compare_read_ack_in(random, tally, frame, 2 * ranges.len())?;
    let Totals { ect0, ect1, ce, .. } = record.totals;
    let wanted = if counts { [1, ect0, ect1, ce] } else { [0; 4] };
    let whole = found.result == ACCEPTED && found.used as usize == frame.len() && found.ranges as usize <= ranges.len();
    if !whole || [found.counts, found.ect0, found.ect1, found.ce] != wanted || Some(found.largest) != record.largest {
        return Err(format!("a written ACK is read as {found:?}: {frame:?} of {record:?}"));
    }
    if counts {
        let names = [
            "03 written with a count of 1 byte",
            "03 written with a count of 2 bytes",
            "03 written with a count of 4 bytes",
            "03 written with a count of 8 bytes",
        ];
        note_widths(tally, names, [ect0, ect1, ce]);
    }
    Ok(())
}

fn note_widths(tally: &mut Tally, names: [&'static str; 4], counts: [u64; 3]) {
    for count in counts {
        tally.note(names[width(count).trailing_zeros() as usize], true);
    }
}

/// A frame of type 03 in order: its fields up to the counts, and the counts.
fn fields(random: &mut Random) -> (Vec<u64>, [u64; 3]) {
    let more = random.below(4);
    let pairs: Vec<u64> = (0..2 * more).map(|_| random.below(70)).collect();
    let first = random.below(100);
    let least = first + pairs.iter().sum::<u64>() + 2 * more;
    let largest = least + random.below(LARGEST - least);
    let fields = [&[largest, count(random), more, first][..], &pairs].concat();
    (fields, [count(random), count(random), count(random)])
}

/// Whole; cut at every byte; with a room that is one short, whole and cut; in each longer form of its type.
fn compare_frame(random: &mut Random, tally: &mut Tally) -> Result<(), String> {
    let (fields, counts) = fields(random);
    let room = 2 * (fields[2] as usize + 1);
    let mut bytes = vec![3];
    fields.iter().for_each(|field| append(&mut bytes, *field));
    let before_counts = bytes.len();
    counts.iter().for_each(|count| append(&mut bytes, *count));
    let found = compare_read_ack_in(random, tally, &bytes, room)?;
    judge("a frame of type 03", [found.result, found.ect0, found.ect1, found.ce], [ACCEPTED, counts[0], counts[1], counts[2]])?;
    let names = [
        "03 read with a count of 1 byte",
        "03 read with a count of 2 bytes",
        "03 read with a count of 4 bytes",
        "03 read with a count of 8 bytes",
    ];
    note_widths(tally, names, counts);
    for end in 0..bytes.len() {
        judge("a frame of type 03, cut", compare_read_ack_in(random, tally, &bytes[..end], room)?.result, ENDS)?;
        judge("the same without room", compare_read_ack_in(random, tally, &bytes[..end], room - 1)?.result, ENDS)?;
        tally.note("2 inside the counts of 03, before 9", end > before_counts);
    }
    tally.note("03 cut at every byte", true);
    judge("03 without room", compare_read_ack_in(random, tally, &bytes, room - 1)?.result, NO_ROOM)?;
    for form in longer_forms(3) {
        let mut longer = Vec::new();
        append_in_form(&mut longer, 3, form);
        longer.extend_from_slice(&bytes[1..]);
        judge("03 in a longer form", compare_read_ack_in(random, tally, &longer, room)?.result, OTHER_TYPE)?;
        tally.note("3 for 03 in a longer form", true);
    }
    Ok(())
}

fn judge<T: PartialEq + std::fmt::Debug>(what: &str, found: T, wanted: T) -> Result<(), String> {
    if found != wanted {
        return Err(format!("{what} gives {found:?}, not {wanted:?}"));
    }
    Ok(())
}
