//! Examples of the feedback report.

use crate::example_lines::{hex, Examples};
use crate::numbers::LARGEST;
use crate::profile::Entry;
use crate::report::{find_entries, read_entry, read_report, read_report_up_to, write_report};
use crate::report::{Header, LARGEST_AVERAGE, MOST_OF_OLD, SMALLEST_AVERAGE};

pub fn check(examples: &mut Examples) {
    reports(examples);
    report_faults(examples);
    long_reports(examples);
    maxima(examples);
}

/// P9's header; three records that rise.
fn p9() -> Header {
    Header { timestamp: 1_000_000, interval: 100_000, total: 3, received: 1, late: 1, lost: 1, average: -2, ..Header::default() }
}

fn three_records() -> Vec<u8> {
    hex("00 00 00 00 00 00 00 07 00 00 00 00 00 00 00 09
         00 00 00 00 00 00 00 08 02 00 00 00 00 00 00 00
         3f ff ff ff ff ff ff ff 03 00 00 00 ff ff ff ff")
}

fn reports(examples: &mut Examples) {
    let bytes = hex("80 0f 42 40 80 01 86 a0 03 01 01 01 03 00 00");
    let mut buffer = [0xee; 64];
    examples.check("P9: written in 15 bytes", write_report(1, &mut buffer, &p9(), &[], 200), Ok((15, 0)));
    examples.check("P9: and they are these", buffer[..15].to_vec(), bytes.clone());
    examples.check("P9: read back", read_report(1, &bytes), Ok((p9(), 15)));
    for (room, wanted) in
        [(63, Ok((63, 3))), (62, Ok((47, 2))), (47, Ok((47, 2))), (46, Ok((31, 1))), (15, Ok((15, 0))), (14, Err(9))]
    {
        let mut buffer = vec![0xee; room];
        examples.check(
            &format!("P10: three records in room {room}"),
            write_report(1, &mut buffer, &p9(), &three_records(), 200),
            wanted,
        );
        if let Ok((length, kept)) = wanted {
            let last = &three_records()[48 - 16 * kept..];
            examples.check("  the last ones are kept", (buffer[14], &buffer[15..length]), (kept as u8, last));
            examples.check("  and found again", find_entries(1, &buffer[..length]), (15, 16 * kept));
        }
    }
    let third = Entry { group: 0, object: LARGEST, status: 3, age: 0xffff_ffff };
    examples.check("the third record is an entry", read_entry(1, &three_records(), 2), Ok(third));
    examples.check("there is no fourth", read_entry(1, &three_records(), 3), Err(2));
    for average in [SMALLEST_AVERAGE, LARGEST_AVERAGE, -1, 0, 1] {
        let header = Header { average, ..p9() };
        let length = write_report(1, &mut buffer, &header, &[], 200).map_or(0, |(length, _)| length);
        examples.check(&format!("average {average} is read back"), read_report(1, &buffer[..length]), Ok((header, length)));
    }
}

fn report_faults(examples: &mut Examples) {
    let mut buffer = [0; 64];
    let metrics = Header { metrics: 2, kinds: [0x12, 0x10, 0, 0, 0, 0, 0, 0], ..p9() };
    let sum = Header { total: 4, ..metrics };
    let number = Header { values: [0, LARGEST + 1, 0, 0, 0, 0, 0, 0], ..sum };
    let records = [three_records(), vec![0]].concat();
    examples.check("writer: 5 before 11", write_report(1, &mut buffer, &number, &records, 200), Err(5));
    examples.check("writer: 11 before 10", write_report(1, &mut buffer, &sum, &records, 200), Err(11));
    examples.check("writer: 10 before 12", write_report(1, &mut buffer, &metrics, &records, 200), Err(10));
    examples.check("writer: 12 before 9", write_report(1, &mut [], &p9(), &records, 200), Err(12));
    examples.check("writer: 257 x 16 + 1 bytes give 12", write_report(1, &mut buffer, &p9(), &[0; 257 * 16 + 1], 200), Err(12));
    examples.check(
        "writer: 257 records with a bad one give 10",
        write_report(1, &mut buffer, &p9(), &[0; 257 * 16], 200),
        Err(10),
    );
    examples.check("writer: two records of one object give 12", write_report(1, &mut buffer, &p9(), &[0; 32], 200), Err(12));
    let five = Header { metrics: 5, kinds: [0, 0, 0, LARGEST + 1, 0, 0, 0, 0], ..p9() };
    examples.check("writer: with count 5 the first four are judged for 5", write_report(1, &mut buffer, &five, &[], 200), Err(5));
    examples.check("writer: then 10", write_report(1, &mut buffer, &Header { metrics: 5, ..p9() }, &[], 200), Err(10));
    let read_faults = [
        ("00 00 03 01 01 02", 11),
        ("00 00 03 01 01 01", 2),
        ("00 00 03 01 01 01 00 05", 10),
        ("00 00 03 01 01 01 00 01 03", 10),
        ("00 00 03 01 01 01 00 01 02 00 40 c9", 10),
        ("00 00 03 01 01 01 00 00 01 ff ff ff ff ff ff ff ff", 2),
        ("00 00 03 01 01 01 00 00 01 ff ff ff ff ff ff ff ff 00 00 00 00 00 00 00 00", 12),
        ("00 00 03 01 01 01 00 00 00 00", 13),
        // document 02, No. 5: at the field, before 10 and 11
        ("40 00 00 03 01 01 01 00 00 00", 15),
        ("00 00 03 01 01 80 00 00 02", 15),
        ("00 00 03 01 01 02 40 00", 11),
        ("00 00 03 01 01 01 40 00", 15),
        ("00 00 03 01 01 01 00 40 05", 15),
        ("00 00 03 01 01 01 00 01 40 03", 15),
        ("00 00 03 01 01 01 00 01 02 c0 00 00 00 00 00 00 00", 15),
        ("00 00 03 01 01 01 00 00 80 00 00 c9", 15),
        ("00 00 03 01 01 01 00 00 40 00", 15),
        ("00 00 03 01 01 01 00 00 40", 2),
        ("00 00 03 01 01 80 00 00", 2),
        ("00 00 03 01 01 01 00 05 40 00", 10),
    ];
    for (bytes, result) in read_faults {
        examples.check(&format!("reader: '{bytes}' gives {result}"), read_report(1, &hex(bytes)), Err(result));
    }
}

/// Records of the objects from 0 on, all received.
fn so_many(count: u64) -> Vec<u8> {
    (0..count).flat_map(|object| [&object.to_be_bytes()[..], &[0; 8]].concat()).collect()
}

/// Document 02, No. 8: from 64 entries on the count takes two bytes.
fn long_reports(examples: &mut Examples) {
    for (count, room, wanted) in [
        (63, 15 + 63 * 16, Ok((15 + 63 * 16, 63))),
        (64, 16 + 64 * 16, Ok((16 + 64 * 16, 64))),
        (64, 15 + 64 * 16, Ok((15 + 63 * 16, 63))),
        (65, 16 + 65 * 16, Ok((16 + 65 * 16, 65))),
        (65, 15 + 65 * 16, Ok((16 + 64 * 16, 64))),
        (200, 16 + 200 * 16, Ok((16 + 200 * 16, 200))),
        (200, 15 + 200 * 16, Ok((16 + 199 * 16, 199))),
        (201, 5000, Ok((16 + 200 * 16, 200))),
        (256, 5000, Ok((16 + 200 * 16, 200))),
        (257, 5000, Err(10)),
    ] {
        let (records, mut buffer) = (so_many(count), vec![0xee; room]);
        let what = format!("No. 8: {count} records in room {room}");
        examples.check(&what, write_report(1, &mut buffer, &p9(), &records, 200), wanted);
        if let Ok((length, kept)) = wanted {
            let last = &records[records.len() - 16 * kept..];
            examples.check("  the last ones are kept", &buffer[length - 16 * kept..length], last);
            examples.check(
                "  and read back",
                read_report(1, &buffer[..length]).map(|(header, _)| header.entries),
                Ok(kept as u64),
            );
        }
    }
    // 200 is 40 c8, 201 is 40 c9
    let read = |count: &str, records: u64| [hex(&format!("00 00 03 01 01 01 00 00 {count}")), so_many(records)].concat();
    let entries = |bytes: Vec<u8>| read_report(1, &bytes).map(|(header, _)| header.entries);
    examples.check("No. 8: a report of 200 is read", entries(read("40 c8", 200)), Ok(200));
    examples.check("No. 8: a report of 201 gives 10", entries(read("40 c9", 201)), Err(10));
    examples.check("No. 8: and before its entries have come", entries(read("40 c9", 0)), Err(10));
    examples.check("No. 8: 200 of which one lacks give 2", entries(read("40 c8", 199)), Err(2));
}

/// Document 02, No. 8: "The writer accepts a maximum from 0 to 200, for old receivers, which refuse more than 50 with 10."
fn maxima(examples: &mut Examples) {
    let mut buffer = [0xee; 5000];
    for (maximum, wanted) in [
        (0, Ok((15, 0))),
        (1, Ok((31, 1))),
        (50, Ok((15 + 50 * 16, 50))),
        (64, Ok((16 + 64 * 16, 64))),
        (200, Ok((16 + 200 * 16, 200))),
        (201, Err(10)),
        (u64::MAX, Err(10)),
    ] {
        let what = format!("No. 8: 256 records and maximum {maximum}");
        examples.check(&what, write_report(1, &mut buffer, &p9(), &so_many(256), maximum), wanted);
        if let Ok((length, kept)) = wanted {
            let old = read_report_up_to(MOST_OF_OLD, 1, &buffer[..length]).map(|(header, _)| header.entries);
            examples.check("  as an old receiver reads it", old, if kept > 50 { Err(10) } else { Ok(kept as u64) });
        }
    }
    let sum = Header { total: 4, ..p9() };
    examples.check("No. 8: 11 before the maximum", write_report(1, &mut buffer, &sum, &[], 201), Err(11));
    examples.check("No. 8: the maximum before 12", write_report(1, &mut buffer, &p9(), &[0], 201), Err(10));
    examples.check("No. 8: 12 where the maximum is in order", write_report(1, &mut buffer, &p9(), &[0], 200), Err(12));
    examples.check("No. 8: the maximum before 9", write_report(1, &mut [], &p9(), &[], 201), Err(10));
    examples.check("No. 8: with maximum 0 each record is judged", write_report(1, &mut buffer, &p9(), &[0; 32], 0), Err(12));
}
