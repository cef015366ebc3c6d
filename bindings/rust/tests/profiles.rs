//! The two profiles of a report: groups, metrics without a name, and what one profile has that the other refuses.

use lumbixet::*;

/// A received object of a group.
fn entry(group: u64, object: u64) -> Entry {
    Entry { group, object, status: Status::Received, age: 9 }
}

#[test]
fn groups() {
    let entries = [entry(5, 70), entry(5, 71), entry(260, 7)];
    let mut buffer = [0; REPORT_2_ROOM];
    let written = Header::default().write(&mut buffer, &entries.map(|entry| entry.record_with_group())).unwrap();
    assert_eq!((written.bytes.len(), written.kept), (9 + 72, 3));
    let report = Report::read(Profile::Two, written.bytes).unwrap();
    assert!(report.entries.iter().eq(entries));
    assert_eq!((report.entries.len(), report.entries.get(2), report.entries.get(3)), (3, Some(entries[2]), None));
    assert!(Report::read(Profile::One, written.bytes).is_err());
    let without = Header::default().write(&mut buffer, &entries[..2].iter().map(Entry::record).collect::<Vec<_>>()).unwrap();
    let report = Report::read(Profile::One, without.bytes).unwrap();
    assert_eq!(report.entries.get(0), Some(Entry { group: 0, ..entries[0] }));
}

/// Records rise by group, then object.
#[test]
fn order() {
    let mut buffer = [0; REPORT_2_ROOM];
    let mut write = |pairs: [(u64, u64); 2]| {
        let records = pairs.map(|(group, object)| entry(group, object).record_with_group());
        Header::default().write(&mut buffer, &records).map(|written| written.kept)
    };
    assert_eq!(write([(3, 7), (3, 8)]), Ok(2));
    assert_eq!(write([(3, 8), (4, 7)]), Ok(2));
    assert_eq!(write([(3, 8), (3, 8)]), Err(Refusal::Entry));
    assert_eq!(write([(4, 7), (3, 8)]), Err(Refusal::Entry));
    assert_eq!(write([(3, 7), (LARGEST, 8)]), Ok(2));
    assert_eq!(write([(3, 7), (LARGEST + 1, 8)]), Err(Refusal::Entry));
}

/// In profile 2 any even type, up to eight of them.
#[test]
fn metrics() {
    let pairs: Vec<(u64, u64)> = (0..9).map(|place| (2 * place, 100 + place)).collect();
    let with = |pairs: &[(u64, u64)]| Header { metrics: Metrics::of(pairs), ..Header::default() };
    let mut buffer = [0; REPORT_2_ROOM];
    let eight = with(&pairs[..8]);
    let written = eight.write::<[u8; 24]>(&mut buffer, &[]).unwrap();
    let report = Report::read(Profile::Two, written.bytes).unwrap();
    assert_eq!(report.header, eight);
    assert!(report.header.metrics.iter().eq(pairs[..8].iter().copied()));
    assert_eq!((report.header.metrics.get(Metrics::ESTIMATED_BANDWIDTH_KBPS), report.header.metrics.get(3)), (Some(102), None));
    assert_eq!(Report::read(Profile::One, written.bytes), Err(Refusal::CountOrType));
    for refused in [&pairs[..], &[(3, 0)], &[(4, 0), (2, 0)], &[(4, 0), (4, 0)]] {
        assert_eq!(with(refused).write::<[u8; 24]>(&mut [], &[]), Err(Refusal::CountOrType));
    }
    assert_eq!(with(&[(0, 1)]).write::<[u8; 16]>(&mut [], &[]), Err(Refusal::CountOrType));
    assert_eq!(with(&[(0, 1)]).write::<[u8; 24]>(&mut [], &[]), Err(Refusal::NoRoom));
}

#[test]
fn numbers() {
    for profile in [Profile::One, Profile::Two] {
        assert_eq!(Profile::from_number(profile.number()), Some(profile));
    }
    for other in [0, 3, u64::MAX] {
        assert_eq!(Profile::from_number(other), None);
        let read = unsafe { raw::lumbixet_read_report(other, [].as_ptr(), 0) };
        assert_eq!(Refusal::from_number(read.result), Refusal::OtherProfile);
    }
}

/// The last lost object of either profile, by the very report that is read whole; what stands before it is not judged.
#[test]
fn newest_lost() {
    let lost = |group, object| Entry { status: Status::NotReceived, age: 0, ..entry(group, object) };
    let entries = [lost(5, 70), lost(5, 71), entry(260, 7)];
    let mut buffer = [0; REPORT_2_ROOM];
    let records = entries.map(|entry| entry.record_with_group());
    let mut bytes = Header::default().write(&mut buffer, &records).unwrap().bytes.to_vec();
    assert_eq!(Report::newest_lost(Profile::Two, &bytes), Ok(Some(Lost { group: 5, object: 71 })));
    bytes[9 + 16] = 4; // the status of the first entry
    assert_eq!(Report::read(Profile::Two, &bytes), Err(Refusal::Entry));
    assert_eq!(Report::newest_lost(Profile::Two, &bytes), Ok(Some(Lost { group: 5, object: 71 })));
    bytes[9 + 48 + 16] = 4; // that of the last
    assert_eq!(Report::newest_lost(Profile::Two, &bytes), Err(Refusal::Entry));
    bytes.push(0);
    assert_eq!(Report::read(Profile::Two, &bytes), Err(Refusal::Entry));
    assert_eq!(Report::newest_lost(Profile::Two, &bytes), Err(Refusal::BytesBehind));
    assert_eq!(Report::newest_lost(Profile::Two, &bytes[..80]), Err(Refusal::Ends));

    let only = [lost(0, 0).record()];
    let written = Header::default().write(&mut buffer, &only).unwrap();
    assert_eq!(Report::newest_lost(Profile::One, written.bytes), Ok(Some(Lost { group: 0, object: 0 })));
    let none = Header::default().write(&mut buffer, &[entry(0, 0).record()]).unwrap();
    assert_eq!(Report::newest_lost(Profile::One, none.bytes), Ok(None));
    let other = unsafe { raw::lumbixet_newest_lost(3, [].as_ptr(), 0) };
    assert_eq!(other, raw::NewestLost { result: 18, ..raw::NewestLost::default() });
}
