//! Empty slices, every refusal and cause by name, records that were made up, and what the C headers say too.

use lumbixet::*;

/// What hosts in C read.
const HEADERS: &str = concat!(
    include_str!("../../../include/lumbixet.h"),
    include_str!("../../../include/lumbixet_lent.h"),
    include_str!("../../../include/lumbixet_pieces.h"),
    include_str!("../../../include/lumbixet_report.h"),
    include_str!("../../../include/lumbixet_sent.h"),
    include_str!("../../../include/lumbixet_text.h"),
    include_str!("../../../include/lumbixet_tracker.h")
);

/// An empty slice is served like any other.
#[test]
fn empty_slices() {
    let mut receiver = Receiver::default();
    assert_eq!(receiver.write(Micros(0), &mut []), Err(Refusal::NothingYet));
    assert_eq!(receiver.confirm(0), Err(Refusal::NothingYet));
    assert_eq!(receiver.packet(Packet { number: 0, time: Micros(0), eliciting: true, mark: Mark::None }), Ok(None));
    assert_eq!(receiver.write(Micros(0), &mut []), Err(Refusal::NoRoom));
    assert_eq!(read_number(&[]), Err(Refusal::Ends));
    assert_eq!(write_number(0, &mut []), Err(Refusal::NoRoom));
    assert_eq!(Frequency::read(&[]), Err(Refusal::Ends));
    assert_eq!(Immediate::read(&[]), Err(Refusal::Ends));
    assert_eq!(Immediate.write(&mut []), Err(Refusal::NoRoom));
    assert_eq!(Ack::read(&[], &mut []), Err(Refusal::Ends));
    assert_eq!(Ack::read(&[0x02, 0, 0, 0, 0], &mut []), Err(Refusal::NoRoom));
    assert_eq!(Report::read(Profile::One, &[]), Err(Refusal::Ends));
    assert_eq!(Report::read(Profile::One, &[0, 0, 0, 0, 0, 0, 0, 0, 0x40, 0]), Err(Refusal::LongerForm));
    assert_eq!(Entry::read(Profile::Two, &[], 0), Err(Refusal::Ends));
    assert_eq!(Header::default().write::<[u8; 16]>(&mut [], &[]), Err(Refusal::NoRoom));
    let mut buffer = [0; REPORT_ROOM];
    let written = Header::default().write::<[u8; 24]>(&mut buffer, &[]).unwrap();
    assert_eq!((written.bytes, written.kept), (&[0; 9][..], 0));
    assert!(Report::read(Profile::One, written.bytes).unwrap().entries.is_empty());
}

#[test]
fn numbers_and_rest() {
    let mut buffer = [0; 8];
    assert_eq!(write_number(15293, &mut buffer), Ok(&[0x7b, 0xbd][..]));
    assert_eq!(read_number(&buffer[..3]), Ok((15293, &[0][..])));
    assert_eq!(write_number(LARGEST + 1, &mut buffer), Err(Refusal::TooLarge));
    assert_eq!(Immediate::read(&[0x1f, 7, 8]), Ok((Immediate, &[7, 8][..])));
}

/// A host whose stack has read the type hands it over, and gets what follows the frame.
#[test]
fn types_read_already() {
    let asked = [0x05, 0x0a, 0x80, 0x00, 0x61, 0xa8, 0x03, 9];
    let (frame, rest) = Frequency::read_as(0xaf, &asked).unwrap();
    assert_eq!((frame.sequence, frame.reordering, rest), (5, 3, &[9][..]));
    assert_eq!(Frequency::read_as(0x1f, &asked), Err(Refusal::OtherType));
    let (bytes, mut ranges) = ([0x05, 0x00, 0x01, 0x02, 0x00, 0x01], [0; 4]);
    assert_eq!(Ack::read_as(2, &bytes, &mut ranges).map(|(ack, rest)| (ack.largest, ack.pairs.len(), rest.len())), Ok((5, 4, 0)));
    assert_eq!(Ack::read_as(3, &bytes, &mut ranges), Err(Refusal::Ends));
    assert_eq!(Ack::read_as(0xaf, &bytes, &mut ranges), Err(Refusal::OtherType));
}

/// Each number has a name, and the name its number; words and numbers are those of the C header.
#[test]
fn names_are_the_headers() {
    for number in 1..21 {
        let refusal = Refusal::from_number(number);
        assert_eq!(refusal.number(), number);
        assert!(HEADERS.contains(&format!("\"{refusal}\"")), "the header has other words than: {refusal}");
    }
    assert_eq!(Refusal::from_number(99), Refusal::Unknown(99));
    assert_eq!(Refusal::Unknown(99).to_string(), "unknown");
    for number in 1..6 {
        let cause = Cause::from_number(number).unwrap();
        assert_eq!(cause.number(), number);
        assert!(HEADERS.contains(&format!("\"{cause}\"")), "the header has other words than: {cause}");
    }
    assert_eq!((Cause::from_number(0), Cause::from_number(6)), (None, None));
    for line in [
        format!("#define LUMBIXET_LARGEST UINT64_C({LARGEST})"),
        format!("#define LUMBIXET_ACK_ROOM {ACK_ROOM}"),
        format!("#define LUMBIXET_FREQUENCY_ROOM {FREQUENCY_ROOM}"),
        format!("#define LUMBIXET_REPORT_ROOM {REPORT_ROOM}"),
        format!("#define LUMBIXET_REPORT_2_ROOM {REPORT_2_ROOM}"),
        format!("#define LUMBIXET_ENTRIES {ENTRIES}\n"),
        format!("#define LUMBIXET_OLD_ENTRIES {OLD_ENTRIES}\n"),
        format!("#define LUMBIXET_HELD {HELD}\n"),
        format!("#define LUMBIXET_PACKET_THRESHOLD {PACKET_THRESHOLD}\n"),
        format!("#define LUMBIXET_TRACKED {TRACKED}\n"),
        format!("#define LUMBIXET_TRACKER_ROOM {}\n", 16 * TRACKED),
    ] {
        assert!(HEADERS.contains(&line), "the header does not say: {line}");
    }
    let manifest = include_str!("../Cargo.toml");
    let version = manifest.lines().find_map(|line| line.strip_prefix("version = ")).unwrap();
    assert!(HEADERS.contains(&format!("#define LUMBIXET_VERSION_TEXT {version}\n")));
    let parts: Vec<u32> = version.trim_matches('"').split('.').map(|part| part.parse().unwrap()).collect();
    assert_eq!(lumbixet::version(), 10000 * parts[0] + 100 * parts[1] + parts[2]);
}

#[test]
fn kept_and_made_up_records() {
    let receiver = Receiver::open(7, 2, Millis(30), Micros(2000)).unwrap();
    assert_eq!(Receiver::from_record(*receiver.record()), receiver);
    let mut broken = *receiver.record();
    broken.cause = 6;
    let mut broken = Receiver::from_record(broken);
    assert_eq!(broken.timer(Micros(0)), Err(Refusal::Inconsistent));
    assert_eq!(broken.cause(), None);
    let mut above = *receiver.record();
    above.confirmed = 1;
    assert_eq!(Receiver::from_record(above).confirm(0), Err(Refusal::Inconsistent));
    assert_eq!(Receiver::open(1, 1, Millis(16384), Micros(0)), Err(Refusal::Delay));
    assert_eq!(Receiver::open(LARGEST + 1, 1, Millis(25), Micros(0)), Err(Refusal::TooLarge));
}

/// A confirmation makes the next ACK shorter, takes no cause away, and does not fall back.
#[test]
fn confirmations() {
    let mut receiver = Receiver::open(1, 0, Millis(25), Micros(1000)).unwrap();
    let packet = |number| Packet { number, time: Micros(0), eliciting: true, mark: Mark::None };
    let mut buffer = [0; ACK_ROOM];
    assert_eq!((receiver.packet(packet(0)), receiver.packet(packet(2))), (Ok(None), Ok(Some(Cause::Count))));
    assert_eq!(receiver.confirm(0), Err(Refusal::NotAcknowledged));
    assert_eq!(receiver.write(Micros(0), &mut buffer), Ok(&[0x02, 2, 0, 1, 0, 0, 0][..]));
    assert_eq!((receiver.packet(packet(4)), receiver.packet(packet(5))), (Ok(None), Ok(Some(Cause::Count))));
    let before = receiver.clone();
    assert_eq!(receiver.confirm(LARGEST + 1), Err(Refusal::TooLarge));
    assert_eq!(receiver.confirm(3), Err(Refusal::NotAcknowledged));
    assert_eq!(receiver, before, "a refused call changed the record");
    assert_eq!((receiver.confirm(2), receiver.confirmed(), receiver.cause()), (Ok(()), 3, Some(Cause::Count)));
    assert_eq!((receiver.confirm(0), receiver.confirmed()), (Ok(()), 3));
    assert_eq!(receiver.packet(packet(2)), Err(Refusal::BelowWindow));
    assert_eq!(receiver.write(Micros(0), &mut buffer), Ok(&[0x02, 5, 0, 0, 1][..]));
    assert_eq!((receiver.confirm(5), receiver.confirmed()), (Ok(()), 5));
    assert_eq!(receiver.packet(packet(5)), Err(Refusal::Repeated));
}

/// Each mark has its own total, refused packets count nowhere, and an ACK of type 03 tells three of the four.
#[test]
fn marks_are_counted() {
    let mut receiver = Receiver::open(1000, 0, Millis(25), Micros(1000)).unwrap();
    let mut number = 0;
    for (mark, times) in [(Mark::Ect0, 70), (Mark::Ect1, 3), (Mark::Ce, 2), (Mark::None, 5)] {
        for _ in 0..times {
            let packet = Packet { number, time: Micros(0), eliciting: number % 2 == 0, mark };
            assert!(receiver.packet(packet).is_ok());
            assert_eq!(receiver.packet(packet), Err(Refusal::Repeated));
            number += 1;
        }
    }
    let counts = Counts { ect0: 70, ect1: 3, ce: 2 };
    assert_eq!(receiver.totals(), Totals { counts, unmarked: 5 });
    let (mut buffer, mut lent) = ([0; ACK_ROOM], [0; 2]);
    let written = [0x03, 0x40, 79, 0, 0, 0x40, 79, 0x40, 70, 3, 2];
    assert_eq!(receiver.write_with_counts(Micros(0), &mut buffer[..10]), Err(Refusal::NoRoom));
    assert_eq!(receiver.write_with_counts(Micros(0), &mut buffer[..11]), Ok(&written[..]));
    let (ack, rest) = Ack::read(&written, &mut lent).unwrap();
    assert_eq!((ack.counts, ack.pairs, rest.len()), (Some(counts), &[0, 79][..], 0));
    let plain = receiver.write(Micros(0), &mut buffer).unwrap();
    assert_eq!(Ack::read(plain, &mut lent).map(|(ack, _)| ack.counts), Ok(None));
    let mut above = *receiver.record();
    above.total_unmarked = LARGEST + 1;
    assert_eq!(Receiver::from_record(above).timer(Micros(0)), Err(Refusal::Inconsistent));
    for byte in 0..=255 {
        assert_eq!(Mark::from_traffic_class(byte).ecn(), u64::from(byte % 4));
    }
}

/// Every metric by a value of its own, and a status of each kind.
#[test]
fn a_whole_report() {
    let metrics = Metrics::of(&[(Metrics::PLAYOUT_AHEAD_MS, 51), (Metrics::PEER_LOSS_RATE, 54)]);
    let header = Header { timestamp: Micros(1001), interval: Micros(1002), average: -7, metrics, ..Header::default() };
    let header = Header { total: 60, received: 10, late: 20, lost: 30, ..header };
    let all = [Status::Received, Status::Late, Status::NotReceived, Status::Partial];
    let age = |status| if status == Status::NotReceived { 0 } else { 256 };
    let entries = [0, 1, 2, 3].map(|i| Entry { group: 0, object: 7 + i as u64, status: all[i], age: age(all[i]) });
    let mut buffer = [0; REPORT_ROOM];
    let written = header.write(&mut buffer, &entries.map(|entry| entry.record())).unwrap();
    let report = Report::read(Profile::One, written.bytes).unwrap();
    assert_eq!(report.header, header);
    assert!(report.entries.iter().eq(entries));
    assert_eq!((report.entries.len(), report.entries.get(1), report.entries.get(4)), (4, Some(entries[1]), None));
    // the timestamp, 1001 in two bytes, stands in four: an equal report in other bytes
    let longer = [&[0x80, 0, 0x03, 0xe9][..], &written.bytes[2..]].concat();
    assert_eq!(Report::read(Profile::One, &longer), Err(Refusal::LongerForm));
    let sum = Header { lost: 31, ..header };
    assert_eq!(sum.write::<[u8; 16]>(&mut buffer, &[]), Err(Refusal::Sum));
}

/// From 64 entries on the count takes two bytes; 200 are the most, and for an old receiver 50 are kept, the last ones.
#[test]
fn long_reports() {
    let records: Vec<_> = (0..256).map(|object| Entry { group: 0, object, status: Status::Received, age: 9 }.record()).collect();
    let mut buffer = [0; REPORT_ROOM];
    for (count, length) in [(63, 9 + 63 * 16), (64, 10 + 64 * 16), (200, 10 + 200 * 16), (201, 10 + 200 * 16)] {
        let written = Header::default().write(&mut buffer, &records[..count]).unwrap();
        assert_eq!((written.bytes.len(), written.kept), (length, count.min(200)));
        let entries = Report::read(Profile::One, written.bytes).unwrap().entries;
        assert_eq!((entries.len(), entries.get(0).unwrap().object), (written.kept, count as u64 - written.kept as u64));
    }
    for (maximum, kept) in [(0, 0), (OLD_ENTRIES, 50), (ENTRIES, 200)] {
        let written = Header::default().write_at_most(maximum, &mut buffer, &records).unwrap();
        assert_eq!(written.kept, kept);
        assert!(written.bytes.ends_with(&records[256 - kept..].concat()));
    }
    for maximum in [ENTRIES + 1, u64::MAX] {
        assert_eq!(Header::default().write_at_most(maximum, &mut [], &records), Err(Refusal::CountOrType));
    }
}
