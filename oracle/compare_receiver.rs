//! The receiver's calls: on made-up records, and on records grown from an opening.

use crate::archive::*;
use crate::compare_counts::{judge_totals, note_mark, note_totals, read_back, write_at_every_room};
use crate::compare_lent::{compare_packet_lent, compare_timer_lent, compare_write_lent};
use crate::made_up::{argument, raw, reordering, up_to};
use crate::numbers::LARGEST;
use crate::random::Random;
use crate::receiver::{confirm, immediate, open, packet, threshold, timer, write, NOT_DUE, ORDER};
use crate::record::{Mark, Record, WINDOW};
use crate::refusals::{ACCEPTED, BELOW_WINDOW};
use crate::tally::{Call, Lent, Tally};

/// All calls on one made-up record.
pub fn made_up(random: &mut Random, tally: &mut Tally) -> Result<(), String> {
    let given = raw(random);
    let record = record_of(&given);
    for _ in 0..3 {
        compare_packet(random, tally, &given, &record)?;
        compare_write(random, tally, &given, &record)?;
    }
    note_totals(tally, &record);
    compare_timer(random, tally, &given, &record)?;
    compare_threshold(random, tally, &given, &record)?;
    compare_immediate(tally, &given, &record)?;
    let but_for_the_floor = !record.consistent() && Record { confirmed: 0, ..record.clone() }.consistent();
    tally.note("1 for nothing but a floor above L", but_for_the_floor && record.largest.is_some());
    tally.note("1 for nothing but a floor while nothing was received", but_for_the_floor && record.largest.is_none());
    let confirmed = compare_confirm(random, tally, &given, &record)?;
    if confirmed != given && random.chance(50) {
        write_at_every_room(random, tally, &confirmed)?;
        tally.note("an ACK at every room after a confirmation", true);
    }
    Ok(())
}

/// A receiver is opened, and each of many calls is given the record that the call before handed back.
pub fn grown(random: &mut Random, tally: &mut Tally) -> Result<(), String> {
    let mut given = compare_open(random, tally)?;
    let mut accepted = Vec::new();
    for _ in 0..random.between(1, 120) {
        let record = record_of(&given);
        given = match random.below(22) {
            0..=13 => {
                let (next, carried) = compare_packet(random, tally, &given, &record)?;
                accepted.extend(carried);
                next
            }
            14 => compare_timer(random, tally, &given, &record)?,
            15 => compare_threshold(random, tally, &given, &record)?,
            16 => compare_immediate(tally, &given, &record)?,
            17 | 18 => compare_confirm(random, tally, &given, &record)?,
            _ => compare_write(random, tally, &given, &record)?,
        };
    }
    judge_totals(&given, &accepted)
}

/// What the archive is to answer: the next record, or on any refusal the record exactly as it was given.
fn wanted(given: &Receiver, (result, next): (u64, Record)) -> Answer {
    Answer { result, next: if result == ACCEPTED { raw_of(&next) } else { *given } }
}

fn compare_open(random: &mut Random, tally: &mut Tally) -> Result<Receiver, String> {
    let threshold = random.one_of(&[0, 1, 3, 30, 1000, 1 << 61]);
    let reordering = reordering(random);
    let fit = [(25, 1000), (25, 25_000), (0, 0), (1, 1000), (16_383, 16_383_000)];
    let unfit = [(25, 25_001), (0, 1), (16_384, 0), (LARGEST, 1000), (16_383, 16_383_001)];
    let (maximum, minimum) = if random.chance(900) { random.one_of(&fit) } else { random.one_of(&unfit) };
    let mut given = [threshold, reordering, maximum, minimum];
    if random.chance(50) {
        given[random.below(4) as usize] = random.one_of(&[LARGEST, LARGEST + 1, u64::MAX]);
    }
    let [t, r, most, least] = given;
    let (result, next) = open(t, r, most, least);
    let archive = unsafe { lumbixet_open(t, r, most, least) };
    tally.compare(Call { name: "open", result, given: &given }, Answer { result, next: raw_of(&next) }, archive)?;
    Ok(archive.next)
}

/// Numbers around L, H, A, U, the floor and the window's marks; now and then any.
fn packet_number(random: &mut Random, record: &Record) -> u64 {
    let largest = record.largest.unwrap_or(0);
    let near = |random: &mut Random, number: u64| number.saturating_sub(2).saturating_add(random.below(5));
    match random.below(14) {
        // rare, for a record whose L is 2^62 - 1 takes little more
        0 if random.chance(100) => argument(random),
        1 if random.chance(100) => LARGEST - random.below(3),
        0 => near(random, record.floor()),
        1 => near(random, record.highest.unwrap_or(0)),
        2 => near(random, record.acknowledged.unwrap_or(0)),
        3 => near(random, record.pending_largest.unwrap_or(0)),
        4 => largest.saturating_add(random.below(200)),
        5 => largest.saturating_add(random.between(WINDOW - 3, WINDOW + 3)),
        6 => largest.saturating_sub(random.below(WINDOW + 3)),
        7 | 8 => record.first_missing(largest.saturating_sub(random.below(WINDOW)), largest).unwrap_or(largest),
        _ => largest.saturating_add(random.between(1, 4)),
    }
}

/// Times around the moments that the record knows.
pub fn time(random: &mut Random, record: &Record) -> u64 {
    let known = [record.pending_first.saturating_add(record.delay), record.pending_first, record.arrived];
    match random.below(40) {
        0 => argument(random),
        1..=12 => random.one_of(&known).saturating_add(up_to(random, 70_000)),
        _ => random.one_of(&known).saturating_sub(1).saturating_add(random.below(3)),
    }
}

/// An ECN field: each mark, alone or in a traffic class byte, or with any bits above it.
fn ecn(random: &mut Random) -> u64 {
    let above = random.any() >> random.one_of(&[0, 56]);
    random.below(4) | if random.chance(300) { above & !3 } else { 0 }
}

/// Gives the next record, and the mark of a packet that was accepted.
fn compare_packet(
    random: &mut Random,
    tally: &mut Tally,
    given: &Receiver,
    record: &Record,
) -> Result<(Receiver, Option<Mark>), String> {
    let (number, time) = (packet_number(random, record), time(random, record));
    let (eliciting, ecn) = (random.chance(800), ecn(random));
    let carried = mark_of_ecn(ecn);
    let papers = wanted(given, packet(record.clone(), number, time, eliciting, carried));
    let archive = unsafe { lumbixet_packet(*given, number, time, eliciting, ecn) };
    let call = Call { name: "packet", result: papers.result, given: &(number, time, eliciting, ecn, given) };
    tally.compare(call, papers, archive)?;
    compare_packet_lent(tally, given, (number, time, eliciting, ecn), papers)?;
    tally.note_cause(&archive);
    note_mark(tally, record, &papers, eliciting, ecn);
    let counted = papers.result == ACCEPTED && eliciting;
    tally.note("N becomes 2^62", counted && record.pending == LARGEST && papers.next.pending_count == LARGEST + 1);
    tally.note("N stays at 2^62", counted && record.pending == LARGEST + 1 && papers.next.pending_count == LARGEST + 1);
    let below = papers.result == BELOW_WINDOW;
    tally.note("7 though it was received and lies within 1,024 of L", below && record.received.contains(&number));
    let by_window = below && record.confirmed < record.window_floor() && number < record.window_floor();
    tally.note("7 below the window's own floor, which is the larger", by_window);
    if papers.result == ACCEPTED && papers.next.cause == NOT_DUE && record.confirmed > record.window_floor() {
        let unconfirmed = Record { confirmed: 0, ..record.clone() };
        let cause = packet(unconfirmed, number, time, eliciting, carried).1.cause;
        tally.note("nothing due, where a gap below the record's floor would be", cause == ORDER);
    }
    Ok((archive.next, Some(carried).filter(|_| papers.result == ACCEPTED)))
}

fn compare_timer(random: &mut Random, tally: &mut Tally, given: &Receiver, record: &Record) -> Result<Receiver, String> {
    let time = time(random, record);
    let papers = wanted(given, timer(record.clone(), time));
    let archive = unsafe { lumbixet_timer(*given, time) };
    tally.compare(Call { name: "timer", result: papers.result, given: &(time, given) }, papers, archive)?;
    compare_timer_lent(tally, given, time, papers)?;
    tally.note_cause(&archive);
    Ok(archive.next)
}

fn compare_threshold(random: &mut Random, tally: &mut Tally, given: &Receiver, record: &Record) -> Result<Receiver, String> {
    let last = record.sequence.unwrap_or(0);
    let sequence = if random.chance(200) { argument(random) } else { last.saturating_sub(1).saturating_add(random.below(4)) };
    let delays = [record.minimum_us, record.minimum_us.saturating_sub(1), 25_000, 16_383_999, 16_384_000, argument(random)];
    let delay = random.one_of(&delays);
    let counts = [0, 1, 5, 1000, argument(random)];
    let (count, order) = (random.one_of(&counts), if random.chance(30) { argument(random) } else { reordering(random) });
    let papers = wanted(given, threshold(record.clone(), sequence, count, delay, order));
    let archive = unsafe { lumbixet_threshold(*given, sequence, count, delay, order) };
    let call = Call { name: "threshold", result: papers.result, given: &(sequence, count, delay, order, given) };
    tally.compare(call, papers, archive)?;
    Ok(archive.next)
}

fn compare_immediate(tally: &mut Tally, given: &Receiver, record: &Record) -> Result<Receiver, String> {
    let papers = wanted(given, immediate(record.clone()));
    let archive = unsafe { lumbixet_immediate(*given) };
    tally.compare(Call { name: "immediate", result: papers.result, given }, papers, archive)?;
    tally.note_cause(&archive);
    Ok(archive.next)
}

/// Numbers around A, L and both floors; now and then any.
fn confirmed_number(random: &mut Random, record: &Record) -> u64 {
    let acknowledged = record.acknowledged.unwrap_or(0);
    let near = |random: &mut Random, number: u64| number.saturating_sub(2).saturating_add(random.below(4));
    match random.below(10) {
        0 => argument(random),
        1 => near(random, record.largest.unwrap_or(0)),
        2 => near(random, record.confirmed),
        3 => near(random, record.window_floor()),
        4 => up_to(random, acknowledged),
        5 | 6 => acknowledged.saturating_sub(random.below(WINDOW)),
        7 => acknowledged,
        _ => near(random, acknowledged),
    }
}

fn compare_confirm(random: &mut Random, tally: &mut Tally, given: &Receiver, record: &Record) -> Result<Receiver, String> {
    let k = confirmed_number(random, record);
    let papers = wanted(given, confirm(record.clone(), k));
    let archive = unsafe { lumbixet_confirm(*given, k) };
    tally.compare(Call { name: "confirm", result: papers.result, given: &(k, given) }, papers, archive)?;
    if papers.result == ACCEPTED {
        let (before, after) = (given.confirmed, papers.next.confirmed);
        tally.note("a confirmation that raises the floor to k + 1", before < after && after == k + 1);
        tally.note("a confirmation of L, which leaves L alone", before < after && record.largest == Some(k));
        tally.note("a confirmation of an earlier number, after which the floor stays", before == after && k + 1 < before);
    }
    Ok(archive.next)
}

/// Room for nothing, for the first range, for all ranges, or for some of them.
fn room(random: &mut Random, record: &Record) -> usize {
    let all = 60 + 2 * record.ranges().len() as u64;
    match random.below(4) {
        0 => random.below(12) as usize,
        1 => random.between(12, 60) as usize,
        2 => random.below(all + 1) as usize,
        _ => random.one_of(&[1200, 2400]),
    }
}

fn compare_write(random: &mut Random, tally: &mut Tally, given: &Receiver, record: &Record) -> Result<Receiver, String> {
    let choice = Choice { time: time(random, record), counts: random.chance(500), room: room(random, record) };
    compare_write_in(random, tally, given, record, choice).map(|wrote| wrote.next)
}

/// What the caller of a write chooses.
#[derive(Clone, Copy, Debug)]
pub struct Choice {
    pub time: u64,
    /// Whether the frame is of type 03.
    pub counts: bool,
    pub room: usize,
}

/// Gives what both answered.
pub fn compare_write_in(
    random: &mut Random,
    tally: &mut Tally,
    given: &Receiver,
    record: &Record,
    choice: Choice,
) -> Result<Wrote, String> {
    let Choice { time, counts, room } = choice;
    let mut papers_lent = Lent::new(random, room);
    let mut archive_lent = papers_lent.clone();
    let also_lent = papers_lent.clone();
    let (result, used, next) = write(record.clone(), time, counts, papers_lent.buffer());
    let answer = wanted(given, (result, next));
    let papers = Wrote { result, length: used as u64, next: answer.next };
    let archive = unsafe { lumbixet_write(*given, time, counts, archive_lent.buffer().as_mut_ptr(), room) };
    if result == ACCEPTED {
        read_back(random, tally, record, counts, &papers_lent.buffer()[..used])?;
    }
    let call = Call { name: if counts { "write 03" } else { "write 02" }, result, given: &(choice, given) };
    compare_write_lent(tally, given, choice, (&papers, &papers_lent), also_lent)?;
    tally.compare(call, (papers, papers_lent.memory), (archive, archive_lent.memory))?;
    let left_out = result == ACCEPTED && record.received.range(..record.confirmed).next().is_some();
    tally.note("an ACK without numbers that the record's floor leaves out", left_out);
    Ok(papers)
}
