//! Examples of the tracker of object statuses (document 02, No. 4): each sentence of the request.

use crate::example_lines::Examples;
use crate::numbers::LARGEST;
use crate::profile::RECORD;
use crate::refusals::{INCONSISTENT, NO_ROOM, OUTSIDE, TOO_LARGE};
use crate::report::{read_entry, read_report, write_report, Header};
use crate::tracker::{open, Known, Tracker, LATE, NOT_RECEIVED, OBJECTS, PARTIAL, RECEIVED};

pub fn check(examples: &mut Examples) {
    statuses(examples);
    losses_by_time(examples);
    far_expectations(examples);
    ignored(examples);
    ages(examples);
    averages(examples);
    ranges_of_averages(examples);
    refusals(examples);
    records(examples);
    rooms(examples);
    whole_reports(examples);
}

/// Objects 100 to 355, one expected every 1,000 microseconds.
fn hundred() -> Tracker {
    open(100, 1000).expect("the numbers are small")
}

/// Arrivals by object and time, without deadlines.
fn with(mut tracker: Tracker, arrivals: &[(u64, u64)]) -> Tracker {
    for (object, time) in arrivals {
        assert_eq!(tracker.arrived(*object, *time, None), Ok(()), "object {object}");
    }
    tracker
}

/// Object, status and age of each entry at a time, and the header.
fn made(tracker: &Tracker, now: u64) -> Result<(Vec<(u64, u64, u64)>, Header), u64> {
    let mut buffer = [0; RECORD * OBJECTS as usize];
    let header = tracker.report(now, 100_000, &mut buffer)?;
    let entries = (0..header.entries as usize).map(|index| read_entry(1, &buffer, index).expect("an entry obeys its rule"));
    Ok((entries.map(|entry| (entry.object, entry.status, entry.age)).collect(), header))
}

fn entries(tracker: &Tracker, now: u64) -> Vec<(u64, u64, u64)> {
    made(tracker, now).map_or_else(|refusal| vec![(refusal, u64::MAX, u64::MAX)], |(entries, _)| entries)
}

fn statuses(examples: &mut Examples) {
    examples.check("tracker: before any arrival there is no entry", entries(&hundred(), LARGEST), vec![]);
    let mut tracker = hundred();
    let arrivals = [(100, 5000, Some(5000)), (101, 6001, Some(6000)), (102, 7000, None)];
    let accepted = arrivals.iter().all(|(object, time, deadline)| tracker.arrived(*object, *time, *deadline).is_ok());
    let wanted = vec![(100, RECEIVED, 3000), (101, LATE, 1999), (102, RECEIVED, 1000)];
    examples.check("tracker: at its deadline received, one above late, without one received", entries(&tracker, 8000), wanted);
    examples.check("  all were accepted", accepted, true);
    let tracker = with(hundred(), &[(100, 5000), (103, 5001)]);
    let lost = vec![(100, RECEIVED, 1), (101, NOT_RECEIVED, 0), (102, NOT_RECEIVED, 0), (103, RECEIVED, 0)];
    examples.check("tracker: lost once a larger number has arrived, at any time asked for", entries(&tracker, 5001), lost);
    let tracker = with(tracker, &[(101, 9000)]);
    let found = entries(&tracker, 9000)[1];
    examples.check("tracker: an arrival after a loss counts", found, (101, RECEIVED, 0));
    let mut tracker = with(hundred(), &[(101, 5000)]);
    let ended = (tracker.ended_early(100, 5500), tracker.ended_early(102, 5500));
    let wanted = vec![(100, PARTIAL, 500), (101, RECEIVED, 1000), (102, PARTIAL, 500)];
    examples.check("tracker: one that ended early is partial, above and below an arrival", entries(&tracker, 6000), wanted);
    examples.check("  both words were taken", ended, (Ok(()), Ok(())));
    let tracker = with(tracker, &[(102, 6000)]);
    examples.check("tracker: an arrival after an early end counts", entries(&tracker, 6000)[2], (102, RECEIVED, 0));
    let mut alone = hundred();
    alone.ended_early(355, 0).expect("the last of the 256");
    examples.check("tracker: an early end is no arrival: nothing below it is lost", entries(&alone, 9), vec![(355, PARTIAL, 9)]);
}

/// Object 110 arrived at 5,000: 111 is expected at 6,000, and 2,000 more may pass.
fn losses_by_time(examples: &mut Examples) {
    let tracker = with(hundred(), &[(110, 5000)]);
    let above = |now| entries(&tracker, now).into_iter().filter(|(object, _, _)| *object > 110).collect::<Vec<_>>();
    examples.check("tracker: at twice the interval after the expected arrival nothing is lost", above(8000), vec![]);
    examples.check("tracker: one microsecond later it is", above(8001), vec![(111, NOT_RECEIVED, 0)]);
    examples.check("tracker: asked for an earlier time it is not", above(7999), vec![]);
    examples.check("tracker: the next one 1,000 later", above(9001).len(), 2);
    examples.check("tracker: those below the arrival are lost at once", entries(&tracker, 0).len(), 11);
    let by_calls = with(hundred(), &[(110, 5000), (105, 100)]);
    let last_at = |now| entries(&by_calls, now).last().map(|entry| entry.0);
    // by 105, the smaller and the earlier, it would be lost from 8,101 on
    examples.check("tracker: first by calls: 111 by 110's time", (last_at(8000), last_at(8001)), (Some(110), Some(111)));
    let by_calls = with(hundred(), &[(105, 5000), (110, 100)]);
    let last_at = |now| entries(&by_calls, now).last().map(|entry| entry.0);
    examples.check(
        "tracker: 111 by 105's time: 5,000 + 6 x 1,000 + 2,000",
        (last_at(13_000), last_at(13_001)),
        (Some(110), Some(111)),
    );
    let still = with(open(100, 0).expect("an interval of 0"), &[(100, 5000)]);
    let counts = (entries(&still, 5000).len(), entries(&still, 5001).len());
    examples.check("tracker: with interval 0 all are lost as soon as the time is past", counts, (1, 256));
}

/// interval x difference and twice the interval pass 64 bits.
fn far_expectations(examples: &mut Examples) {
    let far = with(open(0, LARGEST).expect("the largest interval"), &[(0, LARGEST)]);
    examples.check("tracker: an expected arrival beyond 2^62 is not past", entries(&far, LARGEST), vec![(0, RECEIVED, 0)]);
    // for object 14 it is 14 + 2 times 2^60, which is 2^64 and comes back to 0 in 64 bits
    let quarter = with(open(0, 1 << 60).expect("a large interval"), &[(0, 0)]);
    examples.check("tracker: nor is one at 2^64", entries(&quarter, LARGEST).last().map(|entry| entry.0), Some(1));
    let least = with(open(LARGEST - 255, 1).expect("the last numbers"), &[(LARGEST - 255, 0)]);
    let last = entries(&least, 258).last().map(|entry| entry.0);
    examples.check("tracker: the last number, 2^62 - 1, is lost one past 255 + 2", last, Some(LARGEST));
    examples.check("  and at 257 it is not", entries(&least, 257).len(), 255);
}

fn ignored(examples: &mut Examples) {
    let mut tracker = hundred();
    let answers = [
        tracker.arrived(100, 5000, Some(4999)),
        tracker.arrived(100, 1, None),
        tracker.ended_early(100, 2),
        tracker.ended_early(101, 6000),
        tracker.ended_early(101, 7000),
    ];
    let wanted = vec![(100, LATE, 3000), (101, PARTIAL, 2000)];
    examples.check("tracker: a second arrival, an end after it and a second end are ignored", entries(&tracker, 8000), wanted);
    examples.check("  and answered as accepted", answers, [Ok(()); 5]);
    let before = tracker.clone();
    let judged = (tracker.arrived(100, LARGEST + 1, None), tracker.ended_early(101, LARGEST + 1));
    examples.check("  but judged: 5", judged, (Err(TOO_LARGE), Err(TOO_LARGE)));
    examples.check("  and nothing changed", tracker, before);
}

fn ages(examples: &mut Examples) {
    let age = |arrived, now| entries(&with(hundred(), &[(100, arrived)]), now)[0].2;
    examples.check("tracker: an age of 2^32 - 1", age(1, 1 << 32), 0xffff_ffff);
    examples.check("tracker: ages stop there", age(0, 1 << 32), 0xffff_ffff);
    examples.check("  however long ago it was", age(0, LARGEST), 0xffff_ffff);
    examples.check("tracker: where the clock went back the age is 0", age(5000, 4000), 0);
    let mut ended = hundred();
    ended.ended_early(100, 5000).expect("accepted");
    examples.check("tracker: of an early end too", entries(&ended, 4000), vec![(100, PARTIAL, 0)]);
}

fn average(tracker: &Tracker) -> Result<i64, u64> {
    made(tracker, 0).map(|(_, header)| header.average)
}

fn averages(examples: &mut Examples) {
    examples.check("tracker: no arrival has average 0", average(&hundred()), Ok(0));
    examples.check("tracker: one arrival too", average(&with(hundred(), &[(100, 77)])), Ok(0));
    examples.check("tracker: a gap of 1,500 is 500 too long", average(&with(hundred(), &[(100, 0), (101, 1500)])), Ok(500));
    examples.check("tracker: a gap of 400 is 600 too short", average(&with(hundred(), &[(100, 0), (101, 400)])), Ok(-600));
    let by_time = with(hundred(), &[(100, 4000), (101, 0), (102, 2500)]);
    examples.check("tracker: by arrival time, not by number", average(&by_time), Ok(1000));
    let up = with(hundred(), &[(100, 0), (101, 1000), (102, 2003)]);
    examples.check("tracker: 3 over 2 gaps is 1", average(&up), Ok(1));
    let down = with(hundred(), &[(100, 0), (101, 1000), (102, 1997)]);
    examples.check("tracker: -3 over 2 gaps is -1, toward zero", average(&down), Ok(-1));
    let mut late = with(hundred(), &[(100, 0)]);
    late.arrived(101, 3000, Some(0)).expect("accepted");
    late.ended_early(102, 9000).expect("accepted");
    examples.check("tracker: late ones count, ended ones do not", average(&late), Ok(2000));
    let all: Vec<(u64, u64)> = (0..OBJECTS).map(|place| (100 + place, 1010 * place)).collect();
    examples.check("tracker: 256 arrivals, each gap 10 too long", average(&with(hundred(), &all)), Ok(10));
    examples.check("  and 256 entries", entries(&with(hundred(), &all), 0).len(), 256);
}

/// "5 for an average outside the signed range": from -2^61 to 2^61 - 1.
fn ranges_of_averages(examples: &mut Examples) {
    let two = |interval, gap| with(open(0, interval).expect("a small interval"), &[(0, 0), (1, gap)]);
    examples.check("tracker: an average of -2^61", average(&two(1 << 61, 0)), Ok(-(1 << 61)));
    examples.check("tracker: one less gives 5", average(&two((1 << 61) + 1, 0)), Err(TOO_LARGE));
    examples.check("tracker: an average of 2^61 - 1", average(&two(0, (1 << 61) - 1)), Ok((1 << 61) - 1));
    examples.check("tracker: one more gives 5", average(&two(0, 1 << 61)), Err(TOO_LARGE));
    examples.check("  before 9", two(0, 1 << 61).report(0, 0, &mut []), Err(TOO_LARGE));
}

fn refusals(examples: &mut Examples) {
    examples.check("tracker: the last of the 256 may be 2^62 - 1", open(LARGEST - 255, LARGEST).is_ok(), true);
    examples.check("tracker: not 2^62", open(LARGEST - 254, 0), Err(TOO_LARGE));
    examples.check("tracker: a first number of 2^64 - 1 gives 5", open(u64::MAX, 0), Err(TOO_LARGE));
    examples.check("tracker: an interval of 2^62 gives 5", open(0, LARGEST + 1), Err(TOO_LARGE));
    let mut tracker = hundred();
    examples.check("tracker: the object below the first gives 17", tracker.arrived(99, 0, None), Err(OUTSIDE));
    examples.check("tracker: the one after the last gives 17", tracker.ended_early(356, 0), Err(OUTSIDE));
    examples.check("tracker: the last does not", tracker.arrived(355, 0, None), Ok(()));
    examples.check("tracker: an object of 2^62 gives 5, before 17", tracker.arrived(LARGEST + 1, 0, None), Err(TOO_LARGE));
    examples.check("tracker: a time of 2^62 gives 5, before 17", tracker.ended_early(99, LARGEST + 1), Err(TOO_LARGE));
    examples.check("tracker: so does a deadline", tracker.arrived(99, 0, Some(LARGEST + 1)), Err(TOO_LARGE));
    examples.check("tracker: a report at 2^62 gives 5", tracker.report(LARGEST + 1, 0, &mut []), Err(TOO_LARGE));
    examples.check("tracker: a report interval of 2^62 gives 5", tracker.report(0, LARGEST + 1, &mut []), Err(TOO_LARGE));
}

/// "1 for a record whose parts disagree or break 5": made-up records.
fn records(examples: &mut Examples) {
    let arrived = Known::Arrived { time: 7, late: false };
    let good = with(hundred(), &[(100, 7), (101, 8)]);
    let broken = [
        ("a last number of 2^62", Tracker { first: LARGEST - 254, ..hundred() }),
        ("an interval of 2^62", Tracker { interval: LARGEST + 1, ..hundred() }),
        ("an arrival while none is named first", Tracker { first_arrival: None, ..good.clone() }),
        ("a first arrival of which nothing is known", Tracker { first_arrival: Some(2), ..good.clone() }),
        ("a first arrival outside the 256", Tracker { first_arrival: Some(OBJECTS), ..good.clone() }),
        ("a first arrival that only ended early", Tracker { objects: [(0, Known::Ended { time: 7 })].into(), ..good.clone() }),
        ("a time of 2^62", Tracker { objects: [(0, arrived), (1, Known::Ended { time: LARGEST + 1 })].into(), ..good.clone() }),
    ];
    for (what, mut tracker) in broken {
        let answers = (tracker.arrived(9, LARGEST + 1, None), tracker.ended_early(9, 0), tracker.report(LARGEST + 1, 0, &mut []));
        let wanted = (Err(INCONSISTENT), Err(INCONSISTENT), Err(INCONSISTENT));
        examples.check(&format!("tracker: {what} gives 1, before 5 and 17"), answers, wanted);
    }
    let other = Tracker { first_arrival: Some(1), ..good };
    examples.check("tracker: any arrival may be the one named first", other.consistent(), true);
}

fn rooms(examples: &mut Examples) {
    let mut tracker = with(hundred(), &[(100, 1000), (102, 2000)]);
    tracker.ended_early(103, 2500).expect("accepted");
    let mut buffer = [0xee; 4 * RECORD + 3];
    let header = tracker.report(3000, 777, &mut buffer[..4 * RECORD + 1]);
    let wanted = Header {
        timestamp: 3000,
        interval: 777,
        total: 4,
        received: 2,
        late: 0,
        lost: 2,
        average: 0,
        entries: 4,
        ..Header::default()
    };
    examples.check("tracker: 100 and 102 received, 101 lost, 103 partial: lost counts both", header, Ok(wanted));
    examples.check("  bytes behind the entries stay", buffer[4 * RECORD..].to_vec(), vec![0xee; 3]);
    let mut small = [0xee; 4 * RECORD - 1];
    examples.check("tracker: a byte too few gives 9", tracker.report(3000, 777, &mut small), Err(NO_ROOM));
    examples.check("  and writes nothing", small.iter().all(|byte| *byte == 0xee), true);
    examples.check("tracker: no entries need no room", hundred().report(5, 6, &mut []).map(|header| header.entries), Ok(0));
}

/// What the tracker makes passes the writer of reports, and is read back.
fn whole_reports(examples: &mut Examples) {
    let mut tracker = with(hundred(), &[(103, 1000), (101, 2000), (120, 1500)]);
    tracker.arrived(104, 2600, Some(2599)).expect("accepted");
    tracker.ended_early(110, 2700).expect("accepted");
    let mut entries = [0; RECORD * OBJECTS as usize];
    let header = tracker.report(3000, 100_000, &mut entries).expect("there is room");
    let mut report = [0; 1000];
    let records = &entries[..RECORD * header.entries as usize];
    let written = write_report(1, &mut report, &header, records, 200);
    let length = written.map_or(0, |(length, _)| length);
    examples.check("tracker: its entries and summary are written", written.map(|(_, kept)| kept), Ok(21));
    let (sum, parts) = (header.total, (header.received, header.late, header.lost));
    examples.check("  total equals the three parts", (sum, parts), (21, (3, 1, 17)));
    examples.check("  and read back", read_report(1, &report[..length]).map(|(header, _)| header), Ok(header));
}
