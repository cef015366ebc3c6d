//! A week's reports, added one by one and as a file in pieces. The figures follow from the reports by hand.

use lumbixet::*;

/// A report without metrics, whose numbers take a byte each: its objects have these statuses, and the age 0.
fn report(received: u8, late: u8, lost: u8, statuses: &[Status]) -> Vec<u8> {
    let mut bytes = vec![1, 2, received + late + lost, received, late, lost, 0, 0, statuses.len() as u8];
    for (object, status) in statuses.iter().enumerate() {
        bytes.extend([0, 0, 0, 0, 0, 0, 0, object as u8, *status as u8, 0, 0, 0, 0, 0, 0, 0]);
    }
    bytes
}

fn behind_its_length(report: &[u8]) -> Vec<u8> {
    [&(report.len() as u32).to_be_bytes(), report].concat()
}

fn exactly(value: u64) -> Sum {
    Sum { value, full: false }
}

fn reports() -> [Vec<u8>; 4] {
    let two = report(5, 0, 1, &[Status::Received, Status::Partial]);
    [report(1, 2, 3, &[Status::Late, Status::NotReceived, Status::Received]), vec![], two, vec![0; 8193]]
}

const PAGE: &str = "accepted 2\nrefused 2 1\nrefused 20 1\ntotal 12\nreceived 6\nlate 2\nlost 4\nentries received 2\nentries late 1\nentries not received 1\nentries partial 1\n";

#[test]
fn one_by_one() {
    let mut week = Week::open();
    let answers = reports().map(|report| week.add(&report));
    assert_eq!(answers, [Ok(()), Err(Refusal::Ends), Ok(()), Err(Refusal::TooLong)]);
    assert_eq!(
        (week.accepted(), week.refused(Refusal::Ends), week.refused(Refusal::Entry)),
        (exactly(2), exactly(1), exactly(0))
    );
    assert_eq!((week.refused(Refusal::Unknown(21)), week.refused(Refusal::Unknown(0))), (exactly(0), exactly(0)));
    assert!(week.refusals().eq([(Refusal::Ends, exactly(1)), (Refusal::TooLong, exactly(1))]));
    assert_eq!([week.total(), week.received(), week.late(), week.lost()], [12, 6, 2, 4].map(exactly));
    let statuses = [Status::Received, Status::Late, Status::NotReceived, Status::Partial];
    assert_eq!(statuses.map(|status| week.entries(status)), [2, 1, 1, 1].map(exactly));
    let mut buffer = [0; PAGE_ROOM];
    assert_eq!(week.page(0, &mut buffer), Ok(PAGE.as_bytes()));
    assert_eq!(week.page(1, &mut buffer), Ok(&b"2\n"[..]));
    // a room that just holds it, and one that lacks one byte
    let mut buffer = [b'x'; PAGE.len()];
    assert_eq!(week.page(0, &mut buffer[1..]), Err(Refusal::NoRoom));
    assert_eq!(buffer, [b'x'; PAGE.len()]);
    assert_eq!(week.page(0, &mut buffer), Ok(PAGE.as_bytes()));
}

#[test]
fn in_pieces() {
    let file = reports().map(|report| behind_its_length(&report)).concat();
    for length in [PIECE_LEAST, PIECE_LEAST + 1, file.len() - 1, file.len()] {
        let (mut week, mut at) = (Week::open(), 0);
        while at < file.len() {
            let used = week.piece(&file[at..file.len().min(at + length)]);
            assert!(used > 0);
            at += used;
        }
        assert_eq!(week.page(0, &mut [0; PAGE_ROOM]), Ok(PAGE.as_bytes()));
    }
    let mut week = Week::open();
    assert_eq!(week.piece(&file[..file.len() - 1]), file.len() - 1); // of the long report one byte is still to be skipped
    assert_eq!(week.page(0, &mut [0; PAGE_ROOM]), Ok(&b"2\n"[..]));
}

#[test]
fn past_the_most() {
    let mut record = *Week::open().record();
    record.sums = [u64::MAX - 6; 29];
    let mut week = Week::from_record(record);
    week.add(&reports()[0]).unwrap();
    assert_eq!((week.total(), week.accepted()), (exactly(u64::MAX), exactly(u64::MAX - 5)));
    week.add(&report(0, 0, 1, &[])).unwrap();
    assert_eq!((week.total(), week.lost()), (Sum { value: u64::MAX, full: true }, exactly(u64::MAX - 2)));
}
