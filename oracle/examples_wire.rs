//! Examples of numbers on the wire and of the three frames.

use crate::example_lines::{hex, Examples};
use crate::frames::{put_frequency, put_immediate, read_ack, read_ack_into, read_frequency, read_immediate, Frequency};
use crate::numbers::{append, put, read, width, Number, LARGEST};

pub fn check(examples: &mut Examples) {
    numbers(examples);
    frames(examples);
    acks(examples);
}

fn numbers(examples: &mut Examples) {
    let published = [
        ("c2 19 7c 5e ff 14 e8 8c", 151_288_809_941_952_652),
        ("9d 7f 3e 7d", 494_878_333),
        ("7b bd", 15_293),
        ("25", 37),
        ("40 25", 37),
    ];
    for (bytes, value) in published {
        let bytes = hex(bytes);
        // of the five the last alone, 37 in two bytes, is longer than needed
        let number = Number { value, next: bytes.len(), shortest: bytes != [0x40, 0x25] };
        examples.check(&format!("RFC 9000 A.1: {bytes:02x?} is {value}"), read(&bytes, 0), Ok(number));
        if bytes.len() == width(value) {
            let mut written = Vec::new();
            append(&mut written, value);
            examples.check(&format!("RFC 9000 A.1: {value} is written so"), written, bytes);
        }
    }
    examples.check("P2: 63 takes one byte", width(63), 1);
    examples.check("P3: 64 takes two", width(64), 2);
    let edges = [16_383, 16_384, 1_073_741_823, 1_073_741_824, LARGEST].map(width);
    examples.check("the other edges of the lengths", edges, [2, 4, 4, 8, 8]);
    for (bytes, shortest) in [("3f", true), ("40 3f", false), ("40 40", true), ("80 00 3f ff", false), ("80 00 40 00", true)] {
        examples.check(
            &format!("'{bytes}' is in shortest form: {shortest}"),
            read(&hex(bytes), 0).map(|n| n.shortest),
            Ok(shortest),
        );
    }
    for (bytes, shortest) in [("c0 00 00 00 3f ff ff ff", false), ("c0 00 00 00 40 00 00 00", true)] {
        examples.check(
            &format!("'{bytes}' is in shortest form: {shortest}"),
            read(&hex(bytes), 0).map(|n| n.shortest),
            Ok(shortest),
        );
    }
    examples.check("2^62 gives 5, before 9", put(&mut [], 0, LARGEST + 1), Err(5));
    examples.check("64 in one byte gives 9", put(&mut [0], 0, 64), Err(9));
}

fn frames(examples: &mut Examples) {
    let bytes = hex("40 af 05 0a 80 00 61 a8 03");
    let frame = Frequency { sequence: 5, threshold: 10, delay: 25_000, reordering: 3, used: 9 };
    examples.check("P1: 40 af 05 0a 80 00 61 a8 03 is sequence 5, T 10, delay 25,000, R 3", read_frequency(&bytes), Ok(frame));
    let mut buffer = [0; 9];
    let longer = hex("40 af 40 05 80 00 00 0a 80 00 61 a8 c0 00 00 00 00 00 00 03");
    examples.check("its fields may come in longer forms", read_frequency(&longer), Ok(Frequency { used: 20, ..frame }));
    examples.check("the same frame is written in nine bytes", put_frequency(&mut buffer, [5, 10, 25_000, 3]), Ok(9));
    examples.check("and they are these", buffer.to_vec(), bytes);
    examples.check("it does not fit eight", put_frequency(&mut [0; 8], [5, 10, 25_000, 3]), Err(9));
    examples.check("1f is IMMEDIATE_ACK", read_immediate(&hex("1f ff")), Ok(1));
    examples.check("40 1f gives 3", read_immediate(&hex("40 1f")), Err(3));
    examples.check("IMMEDIATE_ACK in no room gives 9", put_immediate(&mut []), Err(9));
    for (bytes, result) in [("", 2), ("40", 2), ("af", 2), ("80 00 00 af", 3), ("40 ae", 3), ("40 af 05 0a 80 00 61 a8", 2)] {
        examples.check(&format!("'{bytes}' as ACK_FREQUENCY gives {result}"), read_frequency(&hex(bytes)), Err(result));
    }
}

fn acks(examples: &mut Examples) {
    let ranges = read_ack(&hex("02 05 00 01 02 00 01")).map(|ack| ack.ranges);
    examples.check("02 05 00 01 02 00 01 is 3 to 5, 0 to 1", ranges, Ok(vec![(3, 5), (0, 1)]));
    let longer = read_ack(&hex("02 40 05 80 00 00 00 40 01 02 40 00 01")).map(|ack| ack.ranges);
    examples.check("its fields may come in longer forms", longer, Ok(vec![(3, 5), (0, 1)]));
    for (bytes, result) in [("40 02", 3), ("04", 3), ("02 05 00 01 04 02", 14), ("02 05 00 00 06", 14), ("02 05 00 01 02 00", 2)]
    {
        examples.check(&format!("'{bytes}' as ACK gives {result}"), read_ack(&hex(bytes)), Err(result));
    }
    let mut lent = [7; 5];
    let found = read_ack_into(&hex("02 05 00 01 02 00 01"), &mut lent).map(|ack| ack.used);
    examples.check("its ranges are written in pairs, and a later element stays", (found, lent), (Ok(7), [3, 5, 0, 1, 7]));
    let found = read_ack_into(&hex("02 05 00 01 02 00 01"), &mut lent[..3]).map(|ack| ack.used);
    examples.check("three elements have no room for two ranges", found, Err(9));
}
