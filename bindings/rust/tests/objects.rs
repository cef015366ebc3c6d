//! The media objects of a hearing, one every 20 ms, as examples/objects.c tells them: the figures are those of objects.expected.

use lumbixet::*;

const FIRST: u64 = 500;

/// Each object is played 40 ms after it was expected.
fn arrives(tracker: &mut Tracker, object: u64, time: u64) {
    let deadline = Micros((object - FIRST) * 20000 + 40000);
    tracker.arrived(object, Micros(time), Some(deadline)).unwrap();
}

/// A letter for each of the first eight objects, and total, received, late, lost and average.
fn told(tracker: &Tracker, time: u64) -> (String, [u64; 4], i64) {
    let mut room = [[0; 16]; TRACKED];
    let made = tracker.report(Micros(time), Micros(100000), &mut room).unwrap();
    let mut strip = ['.'; 8];
    for record in made.records {
        let entry = Entry::read(Profile::One, record, 0).unwrap();
        strip[(entry.object - FIRST) as usize] = match entry.status {
            Status::Received => 'R',
            Status::Late => 'L',
            Status::NotReceived => '-',
            Status::Partial => 'P',
        };
    }
    let header = made.header;
    let mut buffer = [0; REPORT_ROOM];
    let written = header.write(&mut buffer, made.records).unwrap();
    assert_eq!(Report::read(Profile::One, written.bytes).unwrap().header, header);
    (strip.iter().collect(), [header.total, header.received, header.late, header.lost], header.average)
}

#[test]
fn a_hearing() {
    let mut tracker = Tracker::open(FIRST, Micros(20000)).unwrap();
    assert_eq!(told(&tracker, 0), ("........".into(), [0, 0, 0, 0], 0));
    arrives(&mut tracker, 500, 0);
    arrives(&mut tracker, 501, 20000);
    assert_eq!(told(&tracker, 50000), ("RR......".into(), [2, 2, 0, 0], 0));
    arrives(&mut tracker, 504, 80000);
    assert_eq!(told(&tracker, 90000), ("RR--R...".into(), [5, 3, 0, 2], 20000));
    tracker.ended_early(505, Micros(101000)).unwrap();
    arrives(&mut tracker, 503, 110000);
    assert_eq!(told(&tracker, 120000), ("RR-LRP..".into(), [6, 3, 1, 2], 16666));
    assert_eq!(told(&tracker, 160001), ("RR-LRP-.".into(), [7, 3, 1, 3], 16666));
    assert_eq!(told(&tracker, 10000), ("RR-LRP..".into(), [6, 3, 1, 2], 16666));
}

#[test]
fn refusals() {
    assert_eq!(Tracker::open(LARGEST - 254, Micros(0)), Err(Refusal::TooLarge));
    let mut tracker = Tracker::open(LARGEST - 255, Micros(0)).unwrap();
    assert_eq!(tracker.arrived(0, Micros(0), None), Err(Refusal::Outside));
    assert_eq!(tracker.arrived(LARGEST, Micros(0), Some(Micros(u64::MAX))), Err(Refusal::TooLarge));
    assert_eq!(tracker.ended_early(LARGEST + 1, Micros(0)), Err(Refusal::TooLarge));
    tracker.arrived(LARGEST, Micros(0), Some(Micros(LARGEST))).unwrap();
    assert_eq!(tracker.report(Micros(0), Micros(0), &mut [[0; 16]; TRACKED - 1]), Err(Refusal::NoRoom));
    let mut broken = *tracker.record();
    broken.named = 1;
    let broken = Tracker::from_record(broken);
    assert_eq!(broken.report(Micros(0), Micros(0), &mut [[0; 16]; TRACKED]), Err(Refusal::Inconsistent));
    assert_eq!(Tracker::from_record(*tracker.record()), tracker);
}
