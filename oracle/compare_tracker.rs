//! The tracker's calls: on made-up records, and on records grown from an opening, with reports at every room.

use crate::archive::{lumbixet_tracker_arrived, lumbixet_tracker_ended_early, lumbixet_tracker_open, lumbixet_tracker_report};
use crate::archive::{raw_header, Report, Tracker as Raw};
use crate::made_up::{argument, up_to};
use crate::made_up_tracker::{has_arrived, interval, raw, raw_after, tracker_of};
use crate::numbers::LARGEST;
use crate::profile::RECORD;
use crate::random::Random;
use crate::refusals::{ACCEPTED, INCONSISTENT, NO_ROOM, TOO_LARGE};
use crate::report::{LARGEST_AVERAGE, SMALLEST_AVERAGE};
use crate::tally::{leaves, Call, Lent, Tally};
use crate::tracker::{open, Known, Tracker, OBJECTS};

/// All calls on one made-up record.
pub fn made_up(random: &mut Random, tally: &mut Tally) -> Result<(), String> {
    let given = raw(random);
    note_inconsistent(tally, &given);
    compare_open(random, tally, &given)?;
    for _ in 0..3 {
        let (time, object) = (time_near(random, &given), object_near(random, &given));
        compare_arrived(random, tally, &given, object, time)?;
        let (time, object) = (time_near(random, &given), object_near(random, &given));
        compare_ended_early(tally, &given, object, time)?;
        let time = time_near(random, &given);
        compare_report(random, tally, &given, time)?;
    }
    if random.chance(20) {
        let time = time_near(random, &given);
        report_at_every_room(random, tally, &given, time)?;
    }
    Ok(())
}

/// A tracker is opened, and each of many calls is given the record that the call before left. The clock goes on, and
/// now and then back; objects come in order, and now and then another one does.
pub fn grown(random: &mut Random, tally: &mut Tally) -> Result<(), String> {
    let made_up = raw(random);
    let mut given = compare_open(random, tally, &made_up)?;
    let (mut next, mut time) = (given.first + random.below(4), up_to(random, 1 << 60));
    for _ in 0..random.between(1, 80) {
        let object = if random.chance(800) { next } else { object_near(random, &given) };
        given = match random.below(10) {
            0 => compare_ended_early(tally, &given, object, time)?,
            1 => {
                compare_report(random, tally, &given, time)?;
                given
            }
            _ => compare_arrived(random, tally, &given, object, time)?,
        };
        next += random.one_of(&[0, 1, 1, 1, 1, 2, 5]);
        time = time.saturating_add(given.interval + random.below(3)).min(LARGEST);
        if random.chance(50) {
            time -= random.below(1 + 3 * given.interval.min(1 << 60)).min(time);
        }
    }
    let time = time_near(random, &given);
    compare_report(random, tally, &given, time)?;
    average_at_its_ends(random, tally)
}

/// Two arrivals whose gap, less the interval, is the largest average, the smallest, or one past it.
fn average_at_its_ends(random: &mut Random, tally: &mut Tally) -> Result<(), String> {
    let largest = LARGEST_AVERAGE as u64;
    let (little, past) = (random.below(1000), random.below(2));
    let (interval, gap) = random.one_of(&[(little, little + largest + past), (little + largest + 1 + past, little)]);
    let mut given = Raw { first: random.below(1000), interval, named: 0, objects: [0; OBJECTS as usize] };
    for time in [little, little + gap] {
        let object = object_near(random, &given);
        given = compare_arrived(random, tally, &given, object, time)?;
    }
    compare_report(random, tally, &given, little)
}

fn note_inconsistent(tally: &mut Tally, given: &Raw) {
    let record = tracker_of(given);
    let one_arrived = (0..OBJECTS).any(|place| has_arrived(given, place));
    let with = |change: &dyn Fn(&mut Tracker)| {
        let mut other = record.clone();
        change(&mut other);
        !record.consistent() && other.consistent()
    };
    tally.note("1 for nothing but the last of the 256", given.first <= LARGEST && with(&|other| other.first = 0));
    tally.note("1 for nothing but the interval", with(&|other| other.interval = 0));
    let named = with(&|other| other.first_arrival = (0..OBJECTS).find(|place| has_arrived(given, *place)));
    tally.note("1 where no first arrival is named though one arrived", named && given.named == 0);
    tally.note("1 where the first arrival named is beyond the 256", named && given.named > OBJECTS);
    let among = given.named > 0 && given.named <= OBJECTS;
    tally.note("1 where the first arrival named did not arrive", named && among && one_arrived);
}

/// A time of the record or one near it, the two sides of an overdue moment among them; rarely one above 2^62 - 1.
fn time_near(random: &mut Random, given: &Raw) -> u64 {
    let any = given.objects[random.below(OBJECTS) as usize] & LARGEST;
    let first = given.objects[(given.named.clamp(1, OBJECTS) - 1) as usize] & LARGEST;
    let overdue = first.saturating_add(given.interval.saturating_mul(random.between(3, 40)));
    match random.below(8) {
        0 => argument(random),
        1 => any.saturating_add(0xffff_fffe + random.below(3)).min(LARGEST),
        2 => any.saturating_sub(random.below(3)),
        3 => any.saturating_add(random.below(1_000_000)).min(LARGEST),
        4 => LARGEST,
        _ => overdue.saturating_add(random.below(3)).min(LARGEST + 1),
    }
}

/// Mostly one of the 256; at times one beside them, or any.
fn object_near(random: &mut Random, given: &Raw) -> u64 {
    match random.below(20) {
        0 => given.first.wrapping_sub(1),
        1 => given.first.wrapping_add(OBJECTS),
        2 => argument(random),
        _ => given.first.wrapping_add(random.below(OBJECTS)),
    }
}

fn compare_open(random: &mut Random, tally: &mut Tally, given: &Raw) -> Result<Raw, String> {
    let last_first = LARGEST - (OBJECTS - 1);
    let first = match random.below(12) {
        0 => argument(random),
        1 => random.one_of(&[last_first, last_first + 1, LARGEST]),
        2 => up_to(random, last_first),
        _ => random.below(100_000),
    };
    let interval = if random.chance(950) { interval(random) } else { argument(random) };
    let papers = match open(first, interval) {
        Ok(_) => (ACCEPTED, Raw { first, interval, named: 0, objects: [0; OBJECTS as usize] }),
        Err(result) => (result, *given),
    };
    let (result, next) = leaves(given, |lent| unsafe { lumbixet_tracker_open(lent, first, interval) })?;
    tally.compare(Call { name: "tracker_open", result: papers.0, given: &(first, interval) }, papers, (result, next))?;
    Ok(if result == ACCEPTED { next } else { Raw { first: 7, interval: 20_000, named: 0, objects: [0; OBJECTS as usize] } })
}

/// What the archive is to leave: the words of the next record, or on any refusal those that it was given.
fn wanted(given: &Raw, call: impl Fn(&mut Tracker) -> Result<(), u64>) -> (u64, Raw) {
    let before = tracker_of(given);
    let mut after = before.clone();
    match call(&mut after) {
        Ok(()) => (ACCEPTED, raw_after(given, &before, &after)),
        Err(result) => (result, *given),
    }
}

fn compare_arrived(random: &mut Random, tally: &mut Tally, given: &Raw, object: u64, time: u64) -> Result<Raw, String> {
    // one past the deadline, and 0 for none
    let end = match random.below(8) {
        0 => time.saturating_add(1),
        1 => time,
        2 => argument(random).saturating_add(1),
        3 => time.saturating_add(random.below(50_000)),
        _ => 0,
    };
    let deadline = end.checked_sub(1);
    let papers = wanted(given, |tracker| tracker.arrived(object, time, deadline));
    let (result, next) = leaves(given, |lent| unsafe { lumbixet_tracker_arrived(lent, object, time, end) })?;
    let call = Call { name: "tracker_arrived", result: papers.0, given: &(given, object, time, end) };
    tally.compare(call, papers, (result, next))?;
    if result == ACCEPTED {
        let known = tracker_of(given).objects.get(&(object - given.first)).copied();
        let new = !matches!(known, Some(Known::Arrived { .. }));
        tally.note("an arrival at its deadline", new && deadline == Some(time));
        tally.note("an arrival one past its deadline", new && deadline.map_or(false, |deadline| deadline + 1 == time));
        tally.note("an arrival after an early end", matches!(known, Some(Known::Ended { .. })));
        tally.note(
            "an arrival after a loss",
            known.is_none() && (object - given.first..OBJECTS).any(|place| has_arrived(given, place)),
        );
        tally.note("a second arrival", !new);
    }
    let outside = object.wrapping_sub(given.first) >= OBJECTS;
    tally.note("5 where 17 would be next", result == TOO_LARGE && object <= LARGEST && outside);
    Ok(next)
}

fn compare_ended_early(tally: &mut Tally, given: &Raw, object: u64, time: u64) -> Result<Raw, String> {
    let papers = wanted(given, |tracker| tracker.ended_early(object, time));
    let (result, next) = leaves(given, |lent| unsafe { lumbixet_tracker_ended_early(lent, object, time) })?;
    let call = Call { name: "tracker_ended_early", result: papers.0, given: &(given, object, time) };
    tally.compare(call, papers, (result, next))?;
    if result == ACCEPTED {
        let known = tracker_of(given).objects.get(&(object - given.first)).copied();
        tally.note("a second early end", matches!(known, Some(Known::Ended { .. })));
        tally.note("an early end after an arrival", matches!(known, Some(Known::Arrived { .. })));
    }
    Ok(next)
}

/// A report in room for all, and in some room.
fn compare_report(random: &mut Random, tally: &mut Tally, given: &Raw, time: u64) -> Result<(), String> {
    let interval = argument(random);
    let most = RECORD * OBJECTS as usize;
    let all = report_in(random, tally, given, (time, interval), most)?;
    let room = random.below(RECORD as u64 * (all.header.entries + 1)) as usize;
    report_in(random, tally, given, (time, interval), room)?;
    let record = tracker_of(given);
    if all.result == ACCEPTED {
        let later = given.interval > 0 && time < LARGEST;
        let more =
            |entries: u64| later && record.report(time + 1, 0, &mut [0; 4096]).map_or(false, |next| next.entries > entries);
        tally.note("a report at exactly twice the interval, which has more one later", more(all.header.entries));
        tally.note("a report of all 256", all.header.entries == OBJECTS);
        tally.note("a report without entries", all.header.entries == 0);
        tally.note("an average below zero", all.header.average < 0);
        tally.note("an average above zero", all.header.average > 0);
        tally.note("the largest average", all.header.average == LARGEST_AVERAGE);
        tally.note("the smallest average", all.header.average == SMALLEST_AVERAGE);
    }
    let only_the_average = record.consistent() && time <= LARGEST && interval <= LARGEST;
    tally.note("5 for the average alone", all.result == TOO_LARGE && only_the_average);
    Ok(())
}

fn report_at_every_room(random: &mut Random, tally: &mut Tally, given: &Raw, time: u64) -> Result<(), String> {
    let all = report_in(random, tally, given, (time, 1000), RECORD * OBJECTS as usize)?;
    let whole = RECORD * all.header.entries as usize;
    for room in 0..=whole {
        let made = report_in(random, tally, given, (time, 1000), room)?;
        if made.result == INCONSISTENT || made.result == TOO_LARGE {
            return Ok(());
        }
        tally.note("a report at every room", room == whole && whole > 0 && made.result == ACCEPTED);
        tally.note("9 for one byte less than the whole", room + 1 == whole && made.result == NO_ROOM);
    }
    Ok(())
}

/// The record is lent to be read: it stays as it is, as does the memory around the buffer.
fn report_in(random: &mut Random, tally: &mut Tally, given: &Raw, times: (u64, u64), length: usize) -> Result<Report, String> {
    let (time, interval) = times;
    let mut papers_lent = Lent::new(random, length);
    let mut archive_lent = Lent { memory: papers_lent.memory.clone(), length };
    let papers = match tracker_of(given).report(time, interval, papers_lent.buffer()) {
        Ok(header) => Report { result: ACCEPTED, header: raw_header(&header) },
        Err(result) => Report { result, ..Report::default() },
    };
    let (record, start) = (*given, archive_lent.buffer().as_mut_ptr());
    let archive = unsafe { lumbixet_tracker_report(&record, time, interval, start, length) };
    note_ages(tally, &papers, papers_lent.buffer());
    let call = Call { name: "tracker_report", result: papers.result, given: &(given, times, length) };
    tally.compare(call, (papers, papers_lent.memory, *given), (archive, archive_lent.memory, record))?;
    Ok(archive)
}

fn note_ages(tally: &mut Tally, made: &Report, buffer: &[u8]) {
    for entry in buffer.chunks(RECORD).take(made.header.entries as usize) {
        tally.note("an age that stopped at the largest", entry[12..] == [0xff; 4]);
        tally.note("an age of 0 for an object that arrived", entry[8] < 2 && entry[12..] == [0; 4]);
    }
}
