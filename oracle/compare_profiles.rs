//! Document 02, No. 10: profile 2's order by group and object, its metrics, and the refusal of every other profile.

use crate::compare_report::{another, compare_readers, compare_written};
use crate::made_up_report::{break_header, header, numbers_of, profile_of, records};
use crate::numbers::{append, LARGEST};
use crate::profile::Profile;
use crate::random::Random;
use crate::refusals::{ACCEPTED, COUNT_OR_TYPE, ENDS, ENTRY, OTHER_PROFILE, TOO_LARGE};
use crate::report::{read_report, write_report, Header};
use crate::tally::Tally;

const TWO: u64 = 2;
/// A room in which every report fits.
const AMPLE: usize = 5000;

pub fn round(random: &mut Random, tally: &mut Tally) -> Result<(), String> {
    order(random, tally)?;
    metrics(random, tally)?;
    others(random, tally)
}

/// A report of profile 2 read and written; the result on which all agree.
fn compare(random: &mut Random, tally: &mut Tally, header: &Header, records: &[u8]) -> Result<u64, String> {
    let mut bytes = Vec::new();
    numbers_of(Profile::Two, header, records.len() as u64 / 24).iter().for_each(|number| append(&mut bytes, *number));
    bytes.extend_from_slice(records);
    compare_readers(random, tally, TWO, &bytes)?;
    let (written, _) = compare_written(random, tally, TWO, (header, records), AMPLE, 200)?;
    let read = read_report(TWO, &bytes).err().unwrap_or(ACCEPTED);
    if read != written.result {
        return Err(format!("by the papers the reader gives {read}, the writer {}: {bytes:?}", written.result));
    }
    Ok(read)
}

/// Two records behind others with smaller groups: "They rise by group, then object."
fn order(random: &mut Random, tally: &mut Tally) -> Result<(), String> {
    let header = header(random, Profile::Two);
    let (group, object) = (random.between(1 << 61, LARGEST - 1), random.below(LARGEST - 1));
    let count = random.below(4);
    let mut before = records(random, Profile::Two, count);
    if before.chunks(24).any(|record| record[0] >= 0x20) {
        before.clear();
    }
    for (moment, pairs, wanted) in [
        ("one group and rising objects", [(group, object), (group, object + 1)], ACCEPTED),
        ("a rising group and falling objects", [(group, object + 1), (group + 1, object)], ACCEPTED),
        ("a rising group and the same object", [(group, object), (group + 1, object)], ACCEPTED),
        ("12 for equal pairs", [(group, object), (group, object)], ENTRY),
        ("12 for one group and falling objects", [(group, object + 1), (group, object)], ENTRY),
        ("12 for a falling group and rising objects", [(group + 1, object), (group, object + 1)], ENTRY),
        ("12 for a group above 2^62 - 1", [(group, object), (LARGEST + 1, object)], ENTRY),
        ("12 for an object above 2^62 - 1 in a rising group", [(group, object), (group + 1, LARGEST + 1)], ENTRY),
    ] {
        let pair = |(group, object): (u64, u64)| [&group.to_be_bytes()[..], &object.to_be_bytes(), &[0; 8]].concat();
        let result = compare(random, tally, &header, &[before.clone(), pairs.map(pair).concat()].concat())?;
        if result != wanted {
            return Err(format!("{moment}: by the papers it is {result}"));
        }
        tally.note(moment, true);
    }
    Ok(())
}

/// "Unknown even metric types are allowed and shown with their value; up to 8 metrics." "10 for odd types or more than 8"
fn metrics(random: &mut Random, tally: &mut Tally) -> Result<(), String> {
    let mut header = header(random, Profile::Two);
    header.metrics = 8;
    header.values = [(); 8].map(|()| random.below(LARGEST));
    let first = random.one_of(&[0, 0, 2, 62, 16_000, LARGEST - 15]);
    header.kinds = [0, 2, 4, 6, 8, 10, 12, 14].map(|step| first + step);
    let index = random.below(7) as usize;
    let mut cases = vec![("8 metrics, unknown types among them", header, ACCEPTED)];
    cases.push(("10 for 9 metrics", Header { metrics: 9, ..header }, COUNT_OR_TYPE));
    let mut other = header;
    other.kinds[index] += 1;
    cases.push(("10 for an odd type", other, COUNT_OR_TYPE));
    let mut other = header;
    other.kinds.swap(index, index + 1);
    cases.push(("10 for falling types", other, COUNT_OR_TYPE));
    let mut other = header;
    other.kinds[index + 1] = other.kinds[index];
    cases.push(("10 for a type twice", other, COUNT_OR_TYPE));
    for (moment, header, wanted) in cases {
        let result = compare(random, tally, &header, &[])?;
        if result != wanted {
            return Err(format!("{moment}: by the papers it is {result}, {header:?}"));
        }
        tally.note(moment, true);
    }
    tally.note("type 0 accepted", first == 0);
    let shown = bytes_of(&header).and_then(|bytes| read_report(TWO, &bytes));
    tally.note(
        "unknown types shown with their values",
        shown.map(|(shown, _)| (shown.kinds, shown.values)) == Ok((header.kinds, header.values)),
    );
    let one = compare_written(random, tally, 1, (&header, &[]), AMPLE, 200)?.0;
    tally.note("8 metrics refused in profile 1", one.result == COUNT_OR_TYPE);
    Ok(())
}

fn bytes_of(header: &Header) -> Result<Vec<u8>, u64> {
    let mut buffer = vec![0; AMPLE];
    let (length, _) = write_report(TWO, &mut buffer, header, &[], 200)?;
    buffer.truncate(length);
    Ok(buffer)
}

/// "Refusals: 18 for a profile other than 1 or 2, first": whatever else is wrong.
fn others(random: &mut Random, tally: &mut Tally) -> Result<(), String> {
    let any = another(random);
    let mut header = header(random, Profile::Two);
    break_header(random, profile_of(TWO), &mut header);
    let too_late = Header { timestamp: LARGEST + 1, ..header };
    let broken = write_report(TWO, &mut [0; AMPLE], &header, &[], 200).err();
    for profile in [0, 3, u64::MAX, any] {
        compare_readers(random, tally, profile, &[])?;
        let (written, _) = compare_written(random, tally, profile, (&header, &[0]), 0, 201)?;
        let first = written.result == OTHER_PROFILE && read_report(profile, &[]) == Err(OTHER_PROFILE);
        tally.note("18 for profile 0", profile == 0 && first);
        tally.note("18 for profile 3", profile == 3 && first);
        tally.note("18 for profile 2^64 - 1", profile == u64::MAX && first);
        tally.note("18 before 5", first && broken == Some(TOO_LARGE));
        tally.note("18 before 2", first && read_report(TWO, &[]) == Err(ENDS));
        let (written, _) = compare_written(random, tally, profile, (&too_late, &[]), AMPLE, 200)?;
        tally.note("18 before the 5 of the timestamp", written.result == OTHER_PROFILE);
    }
    Ok(())
}
