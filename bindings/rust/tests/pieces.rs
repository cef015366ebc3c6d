//! Reports that come over several reads. The bytes and the places of the refusals follow from documents 01 and 02 by hand.

use lumbixet::*;

/// Objects 100 to 102, of groups 7, 7 and 8 where the profile has groups: received, late, not received.
fn report(profile: Profile) -> Vec<u8> {
    let mut bytes = vec![0x80, 0x0f, 0x42, 0x40, 0x80, 0x01, 0x86, 0xa0, 3, 1, 1, 1, 3, 0, 3];
    for (group, object, status, age) in
        [(7, 100, Status::Received, 40000), (7, 101, Status::Late, 20000), (8, 102, Status::NotReceived, 0)]
    {
        let entry = Entry { group, object, status, age };
        match profile {
            Profile::One => bytes.extend(entry.record()),
            Profile::Two => bytes.extend(entry.record_with_group()),
        }
    }
    bytes
}

/// The parts one after the other, each as often as its rest asks for it, through a room of one entry: the objects, and the end.
fn fed<'a>(profile: Profile, parts: impl Iterator<Item = &'a [u8]>) -> (Vec<u64>, Result<Header, Refusal>) {
    let (mut pieces, mut objects) = (Pieces::open(profile), Vec::new());
    for mut part in parts {
        loop {
            let mut room = vec![0; profile.record_size()];
            let taken = pieces.take(part, &mut room);
            objects.extend(taken.entries.iter().map(|entry| entry.object));
            part = &part[taken.bytes..];
            if part.is_empty() || taken.refusal.is_some() {
                break;
            }
        }
    }
    (objects, pieces.end())
}

#[test]
fn every_cutting() {
    for profile in [Profile::One, Profile::Two] {
        let bytes = report(profile);
        let whole = Report::read(profile, &bytes).unwrap();
        let wanted = (vec![100, 101, 102], Ok(whole.header));
        assert_eq!(fed(profile, [&bytes[..]].into_iter()), wanted);
        assert_eq!(fed(profile, bytes.chunks(1)), wanted);
        for place in 0..=bytes.len() {
            assert_eq!(fed(profile, [&bytes[..place], &[], &bytes[place..]].into_iter()), wanted);
        }
        for length in 0..bytes.len() {
            let whole = (length.saturating_sub(15)) / profile.record_size();
            assert_eq!(fed(profile, bytes[..length].chunks(7)), (wanted.0[..whole].to_vec(), Err(Refusal::Ends)));
        }
    }
}

#[test]
fn as_it_comes() {
    let bytes = report(Profile::One);
    let mut pieces = Pieces::open(Profile::One);
    let mut room = [0; 40];
    let taken = pieces.take(&bytes[..14], &mut room);
    assert_eq!((taken.bytes, taken.header, taken.entries.len(), taken.refusal), (14, None, 0, None));
    let taken = pieces.take(&bytes[14..15], &mut room);
    assert_eq!(taken.header.map(|header| (header.total, header.average)), Some((3, -2)));
    let taken = pieces.take(&bytes[15..], &mut room[..15]);
    assert_eq!((taken.bytes, taken.refusal), (0, Some(Refusal::NoRoom)));
    let taken = pieces.take(&bytes[15..], &mut room);
    assert_eq!((taken.bytes, taken.entries.len()), (32, 2));
    assert_eq!(taken.entries.get(1), Some(Entry { group: 0, object: 101, status: Status::Late, age: 20000 }));
    let kept = *pieces.record();
    let mut again = Pieces::from_record(kept);
    assert_eq!(again.take(&bytes[47..], &mut room).entries.bytes(), &bytes[47..]);
    assert_eq!(again.end().map(|header| header.lost), Ok(1));
    assert_eq!(again.take(&bytes, &mut room).bytes, 0);
    assert_eq!(pieces.end(), Err(Refusal::Ends));
    assert_eq!(pieces.take(&bytes[47..], &mut room).refusal, Some(Refusal::Ends));
}

/// The report with one byte changed: with which byte it is refused, and how many entries came before.
#[test]
fn refusals_at_their_byte() {
    for (place, byte, refusal, with, came) in [
        (8, 4, Refusal::Sum, 12, 0),
        (13, 5, Refusal::CountOrType, 14, 0),
        (23, 7, Refusal::Entry, 63, 0),
        (39, 7, Refusal::Entry, 63, 1),
        (38, 100, Refusal::Entry, 63, 1),
        (0, 0x80, Refusal::BytesBehind, 64, 3),
    ] {
        let mut bytes = report(Profile::One);
        bytes[place] = byte;
        bytes.push(0);
        let mut pieces = Pieces::open(Profile::One);
        let mut room = [0; 48];
        let first = (0..bytes.len()).find(|at| pieces.take(&bytes[*at..=*at], &mut room).refusal.is_some());
        assert_eq!(first, Some(with - 1));
        assert_eq!(pieces.take(&bytes, &mut []).refusal, Some(Refusal::NoRoom));
        let taken = pieces.take(&bytes, &mut room);
        assert_eq!((taken.bytes, taken.header, taken.refusal), (0, None, Some(refusal)));
        assert_eq!(pieces.end(), Err(refusal));
        assert_eq!(fed(Profile::One, bytes.chunks(10)).0, [100, 101, 102][..came]);
        assert_eq!(Report::read(Profile::One, &bytes).err(), Some(refusal));
    }
}

#[test]
fn made_up_records() {
    let mut record = *Pieces::open(Profile::Two).record();
    record.stage = 5;
    let mut pieces = Pieces::from_record(record);
    assert_eq!(pieces.take(&[0], &mut [0; 24]).refusal, Some(Refusal::Inconsistent));
    assert_eq!(pieces.end(), Err(Refusal::Inconsistent));
    record.profile = 9;
    assert_eq!(Pieces::from_record(record).take(&[0], &mut [0; 24]).entries.len(), 0);
    assert_eq!(*pieces.record(), raw::Pieces { stage: 5, profile: 2, ..raw::Pieces::default() });
}
