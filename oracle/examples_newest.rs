//! Examples of the newest lost object: document 02, No. 11.

use crate::example_lines::{hex, Examples};
use crate::newest::newest_lost;
use crate::numbers::LARGEST;
use crate::report::read_report;

/// Group, object, status, age.
type Record = (u64, u64, u8, u32);

pub fn check(examples: &mut Examples) {
    found(examples);
    bad_records(examples);
    faults(examples);
    bytes_below(examples);
}

/// A report of either profile; in profile 1 the groups are left out.
fn report(profile: u64, records: &[Record]) -> Vec<u8> {
    let mut bytes = hex("00 00 03 01 01 01 00 00");
    bytes.push(records.len() as u8);
    for (group, object, status, age) in records {
        if profile == 2 {
            bytes.extend_from_slice(&group.to_be_bytes());
        }
        bytes.extend_from_slice(&object.to_be_bytes());
        bytes.extend_from_slice(&[*status, 0, 0, 0]);
        bytes.extend_from_slice(&age.to_be_bytes());
    }
    bytes
}

/// The full reader's result and the search's answer in each profile. Objects rise through all groups, so that both accept.
fn both(examples: &mut Examples, what: &str, records: &[Record], full: u64, wanted: Result<Option<(u64, u64)>, u64>) {
    for profile in [1, 2] {
        let bytes = report(profile, records);
        let read = read_report(profile, &bytes).err().unwrap_or(0);
        let shown = wanted.map(|pair| pair.map(|(group, object)| (if profile == 2 { group } else { 0 }, object)));
        examples.check(&format!("No. 11: {what}, profile {profile}"), (read, newest_lost(profile, &bytes)), (full, shown));
    }
}

/// "the answer equals the last such entry of the full reading, or 'none'"
fn found(examples: &mut Examples) {
    both(examples, "no records", &[], 0, Ok(None));
    both(examples, "one record, lost", &[(1, 7, 2, 0)], 0, Ok(Some((1, 7))));
    both(examples, "one record, received", &[(1, 7, 0, 9)], 0, Ok(None));
    both(examples, "one record, late", &[(1, 7, 1, 9)], 0, Ok(None));
    both(examples, "one record, partial", &[(1, 7, 3, 9)], 0, Ok(None));
    both(examples, "object 0 of group 0 is one", &[(0, 0, 2, 0), (0, 1, 0, 0)], 0, Ok(Some((0, 0))));
    both(examples, "the largest numbers", &[(LARGEST, LARGEST, 2, 0)], 0, Ok(Some((LARGEST, LARGEST))));
    both(examples, "the last is found", &[(1, 7, 0, 0), (1, 8, 1, 0), (2, 9, 2, 0)], 0, Ok(Some((2, 9))));
    both(examples, "the one between", &[(1, 7, 0, 0), (1, 8, 2, 0), (2, 9, 3, 5)], 0, Ok(Some((1, 8))));
    both(examples, "the first", &[(1, 7, 2, 0), (1, 8, 0, 5), (2, 9, 1, 5)], 0, Ok(Some((1, 7))));
    both(examples, "the last of two, not the first", &[(1, 7, 2, 0), (1, 8, 2, 0), (2, 9, 0, 0)], 0, Ok(Some((1, 8))));
    both(examples, "a partial one above is passed by", &[(1, 7, 2, 0), (2, 8, 3, 1)], 0, Ok(Some((1, 7))));
    both(examples, "none of three", &[(1, 7, 0, 0), (1, 8, 1, 0), (2, 9, 3, 0)], 0, Ok(None));
    let groups = report(2, &[(3, 8, 2, 0), (4, 8, 2, 0), (5, 7, 0, 0)]);
    examples.check("No. 11: the same object of two groups is that of the later one", newest_lost(2, &groups), Ok(Some((4, 8))));
    let many: Vec<Record> = (0..50).map(|object| (object / 9, object, if object % 20 == 3 { 2 } else { 0 }, 0)).collect();
    both(examples, "of fifty records, 3, 23 and 43 lost", &many, 0, Ok(Some((4, 43))));
}

/// "then a bad record among those read, the found one and the order among them included, gives 12. Others are not noticed"
fn bad_records(examples: &mut Examples) {
    let (low, lost, high, last) = ((1, 6, 0, 0), (1, 7, 2, 0), (2, 8, 0, 0), (2, 9, 1, 4));
    let seven = Ok(Some((1, 7)));
    both(examples, "all in order", &[low, lost, high, last], 0, seven);
    both(examples, "a status of 4 below the found one", &[(1, 6, 4, 0), lost, high, last], 12, seven);
    both(examples, "a lost one with an age below the found one", &[(1, 6, 2, 1), lost, high, last], 12, seven);
    both(examples, "an object above 2^62 - 1 below it", &[(1, LARGEST + 1, 0, 0), lost, high, last], 12, seven);
    both(examples, "the same object below it", &[(1, 7, 0, 0), lost, high, last], 12, seven);
    both(examples, "a larger object below it", &[(1, 9, 0, 0), lost, high, last], 12, seven);
    both(examples, "two below it out of order", &[low, (1, 5, 0, 0), lost, high, last], 12, seven);
    both(examples, "the last one found, all below it bad", &[(9, 9, 9, 9), (9, 9, 9, 9), lost], 12, seven);
    both(examples, "the found one has an age", &[low, (1, 7, 2, 1), high, last], 12, Err(12));
    both(examples, "the found one alone has an age", &[(1, 7, 2, 1)], 12, Err(12));
    both(examples, "the found one above 2^62 - 1", &[low, (1, LARGEST + 1, 2, 0)], 12, Err(12));
    both(examples, "the found one equal to the next", &[low, (2, 8, 2, 0), high, last], 12, Err(12));
    both(examples, "the found one above the next", &[low, (2, 9, 2, 0), high, last], 12, Err(12));
    both(examples, "the order of two behind it", &[low, lost, (2, 9, 0, 0), (2, 8, 0, 0)], 12, Err(12));
    both(examples, "a status of 4 behind it", &[low, lost, (2, 8, 4, 0), last], 12, Err(12));
    both(examples, "a status of 4 at the end", &[low, lost, high, (2, 9, 4, 0)], 12, Err(12));
    both(examples, "no lost one, the first is bad", &[(1, 6, 4, 0), (1, 7, 0, 0), high], 12, Err(12));
    both(examples, "no lost one, the first two are equal", &[low, low, high], 12, Err(12));
    let group = |group| report(2, &[(1, 6, 2, 0), (group, 7, 2, 0)]);
    examples.check("No. 11: the largest group", newest_lost(2, &group(LARGEST)), Ok(Some((LARGEST, 7))));
    examples.check("No. 11: a group above 2^62 - 1", newest_lost(2, &group(LARGEST + 1)), Err(12));
    let before_three = |group| report(2, &[(1, 6, 2, 0), (group, 7, 2, 0), (3, 8, 0, 0)]);
    examples.check("No. 11: a falling group, rising objects", newest_lost(2, &before_three(4)), Err(12));
    examples.check("No. 11: one group, rising objects", newest_lost(2, &before_three(3)), Ok(Some((3, 7))));
    let mut zeros = report(1, &[lost, high]);
    zeros[9 + 16 + 10] = 1;
    examples.check("No. 11: one of the three zero bytes", newest_lost(1, &zeros), Err(12));
    zeros = report(1, &[lost, (1, 8, 2, 0)]);
    zeros[9 + 10] = 1;
    examples.check("  below the found one", newest_lost(1, &zeros), Ok(Some((0, 8))));
}

/// "Where the full reader refuses with a number other than 12, the answer is that number. Where it refuses with 12, 13 comes
/// first if bytes remain"
fn faults(examples: &mut Examples) {
    for profile in [1, 2] {
        let what = |what: &str| format!("No. 11: {what}, profile {profile}");
        let results = |bytes: &[u8]| (read_report(profile, bytes).err(), newest_lost(profile, bytes).err());
        for (found, records) in [("found", [(1, 7, 2, 0), (1, 8, 0, 0)]), ("none", [(1, 7, 0, 0), (1, 8, 0, 0)])] {
            let mut bytes = report(profile, &records);
            bytes.push(0);
            examples.check(&what(&format!("a byte behind, where it would be {found}")), results(&bytes), (Some(13), Some(13)));
            let size = bytes.len() - 1;
            examples.check(&what("a byte less"), results(&bytes[..size - 1]), (Some(2), Some(2)));
        }
        let mut bad = report(profile, &[(1, 7, 0, 0), (1, 8, 9, 0)]);
        examples.check(&what("a bad record and a byte less: 2"), results(&bad[..bad.len() - 1]), (Some(2), Some(2)));
        examples.check(&what("a bad record"), results(&bad), (Some(12), Some(12)));
        bad.push(0);
        examples.check(&what("a bad record and a byte behind: 13 comes first here"), results(&bad), (Some(12), Some(13)));
        let mut below = report(profile, &[(1, 7, 9, 0), (1, 8, 2, 0)]);
        examples.check(&what("a bad record that is not read"), results(&below), (Some(12), None));
        below.push(0);
        examples.check(&what("  and a byte behind"), results(&below), (Some(12), Some(13)));
        for (bytes, number) in [
            ("", 2),
            ("00 00 03 01 01 02", 11),
            ("00 00 03 01 01 01 00 09", 10),
            ("00 00 03 01 01 01 00 01 03", 10),
            ("00 00 03 01 01 01 00 00 40 c9", 10),
            ("00 00 03 01 01 01 00 00 40 01", 15),
            ("40 00 00 03 01 01 02", 15),
            ("00 00 03 01 01 01 00 00 01 ff", 2),
            ("00 00 03 01 01 01 00 00 00 ff", 13),
        ] {
            examples.check(&what(&format!("'{bytes}'")), results(&hex(bytes)), (Some(number), Some(number)));
        }
    }
    for profile in [0, 3, 1 << 32 | 1, u64::MAX] {
        for bytes in [vec![], report(1, &[(0, 7, 2, 0)]), report(1, &[(0, 7, 9, 0)])] {
            examples.check(&format!("No. 11: profile {profile}, {} bytes", bytes.len()), newest_lost(profile, &bytes), Err(18));
        }
    }
}

/// "stop at the first one found": every byte of the records before it, changed in every bit, changes nothing.
fn bytes_below(examples: &mut Examples) {
    for profile in [1, 2] {
        let bytes = report(profile, &[(1, 5, 0, 1), (1, 6, 2, 0), (2, 7, 2, 0), (3, 8, 3, 2)]);
        let size = if profile == 2 { 24 } else { 16 };
        let wanted = newest_lost(profile, &bytes);
        let answers = |places: std::ops::Range<usize>| {
            let changed = places.flat_map(|place| (0..8).map(move |bit| (place, 1 << bit)));
            let mut same = 0;
            for (place, bit) in changed {
                let mut other = bytes.clone();
                other[place] ^= bit;
                same += usize::from(newest_lost(profile, &other) == wanted);
            }
            same
        };
        let found = 9 + 2 * size;
        examples.check(&format!("No. 11: every bit below the found one, profile {profile}"), answers(9..found), 2 * size * 8);
        examples.check("  while each bit of the found one tells", answers(found..found + size), 0);
    }
}
