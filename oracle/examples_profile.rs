//! Examples of the report's profile 2: document 02, No. 10.

use crate::example_lines::{hex, Examples};
use crate::numbers::LARGEST;
use crate::profile::Entry;
use crate::report::{find_entries, read_entry, read_report, write_report, Header};

pub fn check(examples: &mut Examples) {
    records(examples);
    order(examples);
    metrics(examples);
    rooms(examples);
    other_profiles(examples);
}

/// P9's header.
fn p9() -> Header {
    Header { timestamp: 1_000_000, interval: 100_000, total: 3, received: 1, late: 1, lost: 1, average: -2, ..Header::default() }
}

/// A received object of a group.
fn record(group: u64, object: u64) -> Vec<u8> {
    [&group.to_be_bytes()[..], &object.to_be_bytes(), &[0; 8]].concat()
}

fn records(examples: &mut Examples) {
    let bytes = hex("00 00 00 00 00 00 00 05 00 00 00 00 00 00 00 07 01 00 00 00 00 00 01 00
                     3f ff ff ff ff ff ff ff 00 00 00 00 00 00 00 00 02 00 00 00 00 00 00 00");
    let first = Entry { group: 5, object: 7, status: 1, age: 256 };
    let second = Entry { group: LARGEST, object: 0, status: 2, age: 0 };
    examples.check("No. 10: group, then the present 16", read_entry(2, &bytes, 0), Ok(first));
    examples.check("No. 10: the largest group", read_entry(2, &bytes, 1), Ok(second));
    examples.check("No. 10: there is no third", read_entry(2, &bytes, 2), Err(2));
    examples.check("No. 10: in profile 1 a group is 0", read_entry(1, &bytes[8..], 0), Ok(Entry { group: 0, ..first }));
    examples.check("No. 10: a group above 2^62 - 1 gives 12", read_entry(2, &record(LARGEST + 1, 0), 0), Err(12));
    let mut buffer = [0xee; 64];
    examples.check("No. 10: written in 63 bytes", write_report(2, &mut buffer, &p9(), &bytes, 200), Ok((63, 2)));
    let wanted = [&hex("80 0f 42 40 80 01 86 a0 03 01 01 01 03 00 02")[..], &bytes].concat();
    examples.check("  and they are these", buffer[..63].to_vec(), wanted);
    examples.check("  read back", read_report(2, &buffer[..63]), Ok((Header { entries: 2, ..p9() }, 15)));
    examples.check("  with their entries", find_entries(2, &buffer[..63]), (15, 48));
    examples.check("  in profile 1 the second of 16 bytes is bad", read_report(1, &buffer[..63]), Err(12));
    examples.check("No. 10: 40 bytes are no records of 24", write_report(2, &mut buffer, &p9(), &bytes[..40], 200), Err(12));
    examples.check("No. 10: 24 bytes are no records of 16", write_report(1, &mut buffer, &p9(), &bytes[..24], 200), Err(12));
}

/// "They rise by group, then object."
fn order(examples: &mut Examples) {
    for (what, pairs, result) in [
        ("one group, rising objects", [(3, 7), (3, 8)], 0),
        ("a rising group, falling objects", [(3, 8), (4, 7)], 0),
        ("a rising group, one object", [(3, 8), (4, 8)], 0),
        ("equal pairs", [(3, 8), (3, 8)], 12),
        ("one group, falling objects", [(3, 8), (3, 7)], 12),
        ("a falling group, rising objects", [(4, 7), (3, 8)], 12),
        ("a group above 2^62 - 1", [(4, 7), (LARGEST + 1, 8)], 12),
        ("an object above 2^62 - 1", [(4, 7), (5, LARGEST + 1)], 12),
    ] {
        let records = pairs.map(|(group, object)| record(group, object)).concat();
        let report = [hex("00 00 03 01 01 01 00 00 02"), records.clone()].concat();
        let read = read_report(2, &report).err().unwrap_or(0);
        let written = write_report(2, &mut [0; 100], &p9(), &records, 200).err().unwrap_or(0);
        examples.check(&format!("No. 10: {what} give {result}"), (read, written), (result, result));
    }
}

/// "Unknown even metric types are allowed and shown with their value; up to 8 metrics."
fn metrics(examples: &mut Examples) {
    for (bytes, one, two) in [
        ("01 00 09 00", 10, 0),
        ("01 06 09 00", 10, 0),
        ("01 40 40 09 00", 10, 0),
        ("01 03 09 00", 10, 10),
        ("01 3f 09 00", 10, 10),
        ("02 02 09 04 09 00", 0, 0),
        ("02 04 09 02 09 00", 10, 10),
        ("02 02 09 02 09 00", 10, 10),
        ("05 02 09 04 09 10 09 12 09 14 09 00", 10, 0),
        ("08 00 01 02 02 04 03 06 04 08 05 0a 06 0c 07 0e 08 00", 10, 0),
        ("09 00 01 02 02 04 03 06 04 08 05 0a 06 0c 07 0e 08 10 09 00", 10, 10),
        ("40 08", 15, 15),
        ("01 40 06", 15, 15),
    ] {
        let report = [hex("00 00 03 01 01 01 00"), hex(bytes)].concat();
        let results = [1, 2].map(|profile| read_report(profile, &report).err().unwrap_or(0));
        examples.check(&format!("No. 10: metrics '{bytes}' in profiles 1 and 2"), results, [one, two]);
    }
    let eight = Header { metrics: 8, kinds: [0, 2, 6, 8, 10, 12, 14, LARGEST - 1], values: [9; 8], ..p9() };
    let mut buffer = [0; 64];
    let length = write_report(2, &mut buffer, &eight, &[], 200).map_or(0, |(length, _)| length);
    examples.check("No. 10: 8 metrics are read back, unknown ones with their value", length, 15 + 2 * 8 + 7);
    examples.check("  as they were", read_report(2, &buffer[..length]), Ok((eight, length)));
    let mut written = |profile, header| write_report(profile, &mut buffer, &header, &[], 200).err().unwrap_or(0);
    let nine = Header { metrics: 9, ..eight };
    examples.check("No. 10: 9 metrics give 10", written(2, nine), 10);
    let beyond = Header { metrics: 9, values: [9, 9, 9, 9, 9, 9, 9, LARGEST + 1], ..eight };
    examples.check("No. 10: the first eight are judged for 5", written(2, beyond), 5);
    let five = Header { metrics: 5, ..beyond };
    examples.check("No. 10: with count 5 the eighth is not looked at", written(2, five), 0);
    examples.check("No. 10: and in profile 1 it gives 10", written(1, five), 10);
    let odd = Header { metrics: 1, kinds: [LARGEST; 8], ..p9() };
    examples.check("No. 10: an odd type gives 10", written(2, odd), 10);
    examples.check("No. 10: one above 2^62 - 1 gives 5", written(2, Header { kinds: [LARGEST + 1; 8], ..odd }), 5);
}

/// "The order, trimming and whole-or-pieces facts": the longest run of last records of 24 bytes.
fn rooms(examples: &mut Examples) {
    let records = [record(1, 9), record(2, 3), record(2, 4)].concat();
    for room in 0..=100 {
        let mut buffer = vec![0xee; room];
        let wanted = match room {
            0..=14 => Err(9),
            15..=38 => Ok((15, 0)),
            39..=62 => Ok((39, 1)),
            63..=86 => Ok((63, 2)),
            _ => Ok((87, 3)),
        };
        examples.check(
            &format!("No. 10: three records in room {room}"),
            write_report(2, &mut buffer, &p9(), &records, 200),
            wanted,
        );
        if let Ok((length, kept)) = wanted {
            examples.check("  the last ones are kept", &buffer[15..length], &records[72 - 24 * kept..]);
        }
    }
    let rising: Vec<u8> = (0..257).flat_map(|index| record(index / 100, index % 100)).collect();
    let mut buffer = [0; 6000];
    let mut written = |records: &[u8], maximum| write_report(2, &mut buffer, &p9(), records, maximum);
    examples.check("No. 10: 256 records, of which 200 are kept", written(&rising[..256 * 24], 200), Ok((16 + 4800, 200)));
    examples.check("No. 10: 256 records, maximum 50", written(&rising[..256 * 24], 50), Ok((15 + 1200, 50)));
    examples.check("No. 10: 257 records", written(&rising, 200), Err(10));
    examples.check("No. 10: maximum 201", written(&rising[..24], 201), Err(10));
}

/// "Refusals: 18 for a profile other than 1 or 2, first"
fn other_profiles(examples: &mut Examples) {
    let too_large = Header { timestamp: LARGEST + 1, ..p9() };
    for profile in [0, 3, 16, 1 << 32 | 1, u64::MAX] {
        let what = |call: &str| format!("No. 10: profile {profile}, {call}");
        examples.check(&what("read"), read_report(profile, &[]), Err(18));
        examples.check(&what("entries"), find_entries(profile, &[0; 9]), (9, 0));
        examples.check(&what("one entry"), read_entry(profile, &[], 0), Err(18));
        examples.check(&what("written"), write_report(profile, &mut [], &too_large, &[0], 201), Err(18));
    }
}
