//! Examples of reports that arrive over several reads: document 02, No. 6.

use crate::example_lines::{hex, Examples};
use crate::pieces::{open, Pieces, Taken};
use crate::report::{read_report, Header};

pub fn check(examples: &mut Examples) {
    in_order(examples);
    numbers(examples);
    records(examples);
    standing(examples);
    rooms(examples);
    for profile in [0, 3, 1 << 32 | 1, u64::MAX] {
        examples.check(&format!("No. 6: profile {profile}"), open(profile).err(), Some(18));
    }
}

/// The numbers of a report of 9 bytes with so many entries.
fn numbers_for(entries: u8) -> Vec<u8> {
    [&hex("00 00 03 01 01 01 00 00")[..], &[entries]].concat()
}

/// A record of either profile; in profile 1 its group is left out.
fn record(profile: u64, group: u8, object: u8, status: u8) -> Vec<u8> {
    let group = if profile == 2 { vec![0, 0, 0, 0, 0, 0, 0, group] } else { vec![] };
    [&group[..], &[0, 0, 0, 0, 0, 0, 0, object, status, 0, 0, 0, 0, 0, 0, 0]].concat()
}

/// Three records, rising by group and object.
fn three(profile: u64) -> Vec<u8> {
    [numbers_for(3), record(profile, 1, 7, 0), record(profile, 1, 8, 2), record(profile, 2, 9, 1)].concat()
}

fn size_of(profile: u64) -> usize {
    if profile == 2 {
        24
    } else {
        16
    }
}

fn opened(profile: u64) -> Pieces {
    open(profile).expect("1 or 2")
}

/// One call with room for so many records: result, bytes, records, and whether the header came with it.
fn call(pieces: &mut Pieces, part: &[u8], room: usize) -> (u64, usize, usize, bool) {
    let mut buffer = vec![0; room * pieces.profile.record()];
    let Taken { result, bytes, records, header } = pieces.take(part, &mut buffer);
    (result, bytes, records, header.is_some())
}

/// The parts one after the other through a buffer of one record: all records that came, and the end.
fn fed<'a>(profile: u64, parts: impl Iterator<Item = &'a [u8]>) -> (Vec<u8>, Result<Header, u64>) {
    let (mut pieces, mut came, mut buffer) = (opened(profile), Vec::new(), vec![0; size_of(profile)]);
    for part in parts {
        let mut rest = part;
        loop {
            let taken = pieces.take(rest, &mut buffer);
            came.extend_from_slice(&buffer[..taken.records * size_of(profile)]);
            rest = &rest[taken.bytes..];
            if taken.result != 0 || rest.is_empty() {
                break;
            }
        }
    }
    let end = pieces.end();
    (came, end)
}

/// "For all cuttings .. the header, the entries in order of an accepted report, and the refusal number equal those of the whole
/// reader."
fn in_order(examples: &mut Examples) {
    for profile in [1, 2] {
        let what = |what: &str| format!("No. 6: {what}, profile {profile}");
        let bytes = three(profile);
        let wanted = (bytes[9..].to_vec(), read_report(profile, &bytes).map(|(header, _)| header));
        examples.check(&what("in one part"), fed(profile, [&bytes[..]].into_iter()), wanted.clone());
        examples.check(&what("byte by byte"), fed(profile, bytes.chunks(1)), wanted.clone());
        let same = |cut: &usize| fed(profile, [&bytes[..*cut], &[], &bytes[*cut..]].into_iter()) == wanted;
        examples.check(&what("at every place, an empty part between"), (0..=bytes.len()).filter(same).count(), bytes.len() + 1);
        let short = |end: &usize| fed(profile, bytes[..*end].chunks(5)).1 == Err(2);
        examples.check(&what("2 for every end that comes first"), (0..bytes.len()).filter(short).count(), bytes.len());
        let none = numbers_for(0);
        examples.check(&what("no entries"), fed(profile, none.chunks(2)).1.map(|header| header.total), Ok(3));
    }
    examples.check("No. 6: no part at all", fed(1, [].into_iter()), (vec![], Err(2)));
}

/// Each number is judged when it is whole, and the header comes with its last byte.
fn numbers(examples: &mut Examples) {
    for (bytes, result) in [
        ("40 01", 15),
        ("80 00 00 01", 15),
        ("00 00 03 01 01 02", 11),
        ("00 00 03 01 01 40 01", 15),
        ("00 00 03 01 01 01 00 09", 10),
        ("00 00 03 01 01 01 00 40 09", 15),
        ("00 00 03 01 01 01 00 01 03", 10),
        ("00 00 03 01 01 01 00 02 04 07 02", 10),
        ("00 00 03 01 01 01 00 00 40 c9", 10),
        ("00 00 03 01 01 01 00 00 40 03", 15),
    ] {
        let bytes = hex(bytes);
        let mut pieces = opened(1);
        let (all_but_one, last) = bytes.split_at(bytes.len() - 1);
        let name = format!("No. 6: {result} with the last byte of {bytes:?}, and not before");
        examples.check(&name, call(&mut pieces, all_but_one, 1), (0, bytes.len() - 1, 0, false));
        examples.check("  the last byte", call(&mut pieces, last, 1), (result, 1, 0, false));
        examples.check("  again, and no byte more", call(&mut pieces, &[0, 0], 1), (result, 0, 0, false));
        examples.check("  and with the end", (pieces.end(), fed(1, bytes.chunks(1)).1), (Err(result), Err(result)));
    }
    let mut pieces = opened(1);
    examples.check("No. 6: no header before the entry count", call(&mut pieces, &three(1)[..8], 1), (0, 8, 0, false));
    examples.check("  with its byte the header", call(&mut pieces, &three(1)[8..9], 1), (0, 1, 0, true));
    examples.check("  and with every call behind", call(&mut pieces, &[], 1), (0, 0, 0, true));
}

/// "After a bad record it delivers nothing more and counts the bytes on: 12 is given when all the report's entry bytes have come,
/// 2 if the end comes first. Of a refused report exactly the good records before the first bad or missing one are delivered"
fn records(examples: &mut Examples) {
    for profile in [1, 2] {
        let what = |what: &str| format!("No. 6: {what}, profile {profile}");
        let size = size_of(profile);
        for (fault, second) in [
            ("a status of 4", record(profile, 1, 8, 4)),
            ("the place of the record before", record(profile, 1, 7, 0)),
            ("a lower place", record(profile, 1, 6, 0)),
        ] {
            let bytes = [&three(profile)[..9 + size], &second, &three(profile)[9 + 2 * size..]].concat();
            let first = bytes[9..9 + size].to_vec();
            examples.check(&what(&format!("{fault}: 12 at the end")), fed(profile, bytes.chunks(7)), (first.clone(), Err(12)));
            let mut pieces = opened(profile);
            let before = call(&mut pieces, &bytes[..bytes.len() - 1], 3);
            examples.check("  the first alone comes, and no refusal yet", before, (0, bytes.len() - 1, 1, true));
            examples.check("  12 with the last byte", call(&mut pieces, &bytes[bytes.len() - 1..], 3), (12, 1, 0, false));
            examples.check("  12 before 13", call(&mut pieces, &[0], 3), (12, 0, 0, false));
            let cut = fed(profile, bytes[..bytes.len() - 1].chunks(7));
            examples.check("  2 where the end comes first", cut, (first, Err(2)));
        }
        let bytes = three(profile);
        for cut in [9 + size, 10 + size, 8 + 2 * size] {
            let came = bytes[9..9 + size].to_vec();
            examples.check(&what("a second record is missing"), fed(profile, [&bytes[..cut]].into_iter()), (came, Err(2)));
        }
        let behind = [&bytes[..], &[0, 0]].concat();
        examples.check(&what("a byte too many"), fed(profile, behind.chunks(9)), (bytes[9..].to_vec(), Err(13)));
    }
}

/// "later calls give these again"; "After the end was said the answer stands"
fn standing(examples: &mut Examples) {
    let mut pieces = opened(1);
    examples.check(
        "No. 6: 13 with the first byte too many",
        call(&mut pieces, &[&three(1)[..], &[0, 0]].concat(), 3),
        (13, 58, 3, false),
    );
    examples.check("  9 before it", call(&mut pieces, &[0], 0), (9, 0, 0, false));
    examples.check("  13 again", (call(&mut pieces, &[0], 1), pieces.end()), ((13, 0, 0, false), Err(13)));
    let mut pieces = opened(1);
    examples.check("No. 6: an end inside a record", (call(&mut pieces, &three(1)[..30], 3).2, pieces.end()), (1, Err(2)));
    examples.check("  its rest is not taken", call(&mut pieces, &three(1)[30..], 3), (2, 0, 0, false));
    examples.check("  and the end is 2 again", pieces.end(), Err(2));
    let mut pieces = opened(1);
    let accepted = (call(&mut pieces, &three(1), 3), pieces.end().map(|header| header.entries));
    examples.check("No. 6: an accepted end", accepted, ((0, 57, 3, true), Ok(3)));
    examples.check("  takes nothing more", call(&mut pieces, &[0, 0], 1), (0, 0, 0, true));
    examples.check("  and stays accepted", pieces.end().map(|header| header.entries), Ok(3));
}

/// "9 if the buffer holds no whole record, before any byte is taken"; "When the buffer is full the call takes no byte of a further
/// record"
fn rooms(examples: &mut Examples) {
    for (profile, size) in [(1, 16), (2, 24)] {
        let what = |what: &str| format!("No. 6: {what}, profile {profile}");
        let bytes = three(profile);
        let mut pieces = opened(profile);
        let before = pieces.clone();
        let nothing = pieces.take(&bytes, &mut vec![0; size - 1]);
        examples.check(&what("9 for a byte less than a record"), (nothing, &pieces), (Taken::refused(9), &before));
        examples.check("  and it does not stand", call(&mut pieces, &bytes, 1), (0, 9 + size, 1, true));
        examples.check("  the rest", call(&mut pieces, &bytes[9 + size..], 1), (0, size, 1, true));
        examples.check("  the rest of that", call(&mut pieces, &bytes[9 + 2 * size..], 1), (0, size, 1, true));
        examples.check("  the end", pieces.end().is_ok(), true);
        let mut pieces = opened(profile);
        let mut buffer = vec![0xa5; 3 * size - 1];
        let taken = pieces.take(&bytes, &mut buffer);
        examples.check(&what("room for two and not for three"), (taken.bytes, taken.records), (9 + 2 * size, 2));
        examples.check("  what follows them stays", buffer, [&bytes[9..9 + 2 * size], &vec![0xa5; size - 1]].concat());
        let behind = [&bytes[..], &[0]].concat();
        let mut pieces = opened(profile);
        examples.check(&what("13 though the buffer is full"), call(&mut pieces, &behind, 3), (13, behind.len(), 3, false));
        let bad = [&bytes[..9 + size], &record(profile, 9, 9, 9)[..], &bytes[9 + 2 * size..]].concat();
        let mut pieces = opened(profile);
        examples.check(&what("a bad record behind a full buffer"), call(&mut pieces, &bad, 1), (0, 9 + size, 1, true));
        examples.check("  needs no room", call(&mut pieces, &bad[9 + size..], 1), (12, 2 * size, 0, false));
    }
}
