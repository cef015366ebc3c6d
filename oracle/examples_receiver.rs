//! Examples of the receiver's calls.

use crate::example_lines::{hex, Examples};
use crate::numbers::LARGEST;
use crate::receiver::{confirm, immediate, open, packet, threshold, timer, write, NOT_DUE, ORDER};
use crate::record::Mark::{Ce, Unmarked};
use crate::record::Record;
use crate::refusals::{NOT_ACKNOWLEDGED, STALE};

pub fn check(examples: &mut Examples) {
    orders(examples);
    writes(examples);
    windows(examples);
    delays(examples);
    calls(examples);
    confirmations(examples);
    confirmed_gaps(examples);
}

/// Arrivals at time 0, all ack-eliciting, "written when due": the numbers at which one was due.
fn due_at(reordering: u64, arrivals: &[u64]) -> Vec<u64> {
    let mut record = open(1000, reordering, 25, 1000).1;
    let mut due = Vec::new();
    for number in arrivals {
        record = packet(record, *number, 0, true, Unmarked).1;
        if record.cause != NOT_DUE {
            due.push(*number);
            record = write(record, 0, false, &mut [0; 64]).2;
        }
    }
    due
}

fn orders(examples: &mut Examples) {
    examples.check("P4: R 3, arrivals 0, 1, 3, 4, 5, 8, 9, 10", due_at(3, &[0, 1, 3, 4, 5, 8, 9, 10]), vec![5, 9, 10]);
    examples.check("P5: R 5, arrivals 0, 1, 3, 5, 6, 7, 8", due_at(5, &[0, 1, 3, 5, 6, 7, 8]), vec![7]);
    examples.check("R 1, arrivals 0, 2, 3, 1: below the earlier H, or a gap", due_at(1, &[0, 2, 3, 1]), vec![2, 1]);
    examples.check("R 0 is never due by order", due_at(0, &[9, 3, 700, 2]), vec![]);
    let far = vec![0, 1022, 1023, 1024];
    examples.check("R 5,000 acts as 1,023: 1 is missing, 1,024 - 1 = 1,023", due_at(5000, &far), vec![1024]);
}

fn received(numbers: &[u64]) -> Record {
    numbers.iter().fold(open(1000, 3, 25, 1000).1, |record, number| packet(record, *number, 0, true, Unmarked).1)
}

fn writes(examples: &mut Examples) {
    let record = received(&[0, 1, 3, 4, 5]);
    for (name, room, wanted) in [
        ("P6: 0, 1, 3, 4, 5 received, no delay", 7, Ok("02 05 00 01 02 00 01")),
        ("P7: the same in room 6", 6, Ok("02 05 00 00 02")),
        ("P7: the same in room 5", 5, Ok("02 05 00 00 02")),
        ("P7: room 4: refusal 9", 4, Err(9)),
    ] {
        let mut buffer = vec![0xee; room];
        let (result, length, next) = write(record.clone(), 0, false, &mut buffer);
        let found = if result == 0 { Ok(buffer[..length].to_vec()) } else { Err(result) };
        examples.check(name, found, wanted.map(hex));
        examples.check("  bytes after it stay", buffer[length..].iter().all(|byte| *byte == 0xee), true);
        let refused_unchanged = result == 0 || next == record;
        let written = result != 0 || (next.acknowledged, next.pending_largest, next.pending, next.cause) == (Some(5), None, 0, 0);
        examples.check("  A = L, U is absent, N and cause are 0; or nothing changed", refused_unchanged && written, true);
    }
    let mut buffer = [0; 8];
    let (_, length, _) = write(record, 15_999, false, &mut buffer);
    examples.check("15,999 us are 1,999 eighths", buffer[..length].to_vec(), hex("02 05 47 cf 01 02 00 01"));
}

fn windows(examples: &mut Examples) {
    let full = received(&[1023]);
    examples.check("P8: at L 1,023 number 0 is in the window", packet(full.clone(), 0, 0, true, Unmarked).0, 0);
    let (result, passed) = packet(full, 1024, 0, true, Unmarked);
    examples.check("P8: 1,024 is accepted", result, 0);
    examples.check("P8: at 1,024 number 0 gives 7", packet(passed.clone(), 0, 0, true, Unmarked), (7, passed.clone()));
    examples.check("a repeated number gives 6", packet(passed.clone(), 1023, 0, true, Unmarked), (6, passed.clone()));
    examples.check("number 2^62 - 1 is accepted", packet(passed.clone(), LARGEST, 0, true, Unmarked).0, 0);
    examples.check("number 2^62 gives 5", packet(passed.clone(), LARGEST + 1, 0, true, Unmarked), (5, passed.clone()));
    let mut broken = passed;
    broken.pending = 0;
    examples.check(
        "a record whose N is 0 while U is there gives 1",
        packet(broken.clone(), LARGEST + 1, 0, true, Unmarked),
        (1, broken),
    );
}

fn delays(examples: &mut Examples) {
    let record = open(1000, 3, 25, 1000).1;
    examples.check("a requested delay of 16,383,999 passes", threshold(record.clone(), 5, 1, 16_383_999, 1).0, 0);
    examples.check("16,384,000 gives 4", threshold(record.clone(), 5, 1, 16_384_000, 1), (4, record.clone()));
    examples.check("999, below the minimum, gives 4", threshold(record.clone(), 5, 1, 999, 1), (4, record.clone()));
    let first = threshold(record, 5, 10, 25_000, 3).1;
    examples.check("the second frame with sequence 5 is stale", threshold(first.clone(), 5, 9, 1000, 9), (STALE, first.clone()));
    examples.check("a stale frame with a bad delay gives 4", threshold(first.clone(), 5, 9, 0, 9), (4, first));
    examples.check("a maximum of 16,383 ms passes", open(1, 1, 16_383, 1000).0, 0);
    let usual = open(1, 1, 25, 1000).1;
    examples.check("16,384 ms gives 4 and the usual record", open(9, 9, 16_384, 0), (4, usual.clone()));
    examples.check("a minimum above the maximum gives 4", open(9, 9, 25, 25_001), (4, usual.clone()));
    examples.check("a threshold of 2^62 gives 5", open(LARGEST + 1, 9, 16_384, 0), (5, usual));
}

fn calls(examples: &mut Examples) {
    let empty = open(2, 3, 25, 1000).1;
    examples.check("IMMEDIATE_ACK before the first packet gives 8", immediate(empty.clone()), (8, empty.clone()));
    examples.check("a write before the first packet gives 8", write(empty.clone(), 0, false, &mut [0; 9]).0, 8);
    examples.check("a timer before the first packet does nothing", timer(empty.clone(), LARGEST), (0, empty.clone()));
    let one = packet(empty, 0, 100, true, Unmarked).1;
    examples.check("24,999 us after the first arrival nothing is due", timer(one.clone(), 25_099).1.cause, 0);
    examples.check("25,000 us after it cause 5 is", timer(one.clone(), 25_100).1.cause, 5);
    examples.check("a clock that went back is no time passed", timer(one.clone(), 0).1.cause, 0);
    examples.check("IMMEDIATE_ACK sets cause 1", immediate(one.clone()).1.cause, 1);
    let two = packet(one, 1, 100, true, Unmarked).1;
    examples.check("T 2: two packets are not due", two.cause, 0);
    examples.check("three are: cause 2", packet(two.clone(), 2, 100, true, Ce).1.cause, 2);
    let marked = packet(two.clone(), 2, 100, false, Ce).1;
    examples.check("a marked packet that is not ack-eliciting sets no cause", marked.cause, 0);
    let written = write(two, 100, false, &mut [0; 9]).2;
    examples.check("an ack-eliciting one that begins a run sets cause 4", packet(written, 2, 100, true, Ce).1.cause, 4);
    let in_a_run = |record: Record| packet(write(record, 100, false, &mut [0; 9]).2, 3, 100, true, Ce).1.cause;
    examples.check("one inside a run does too before anything was agreed", in_a_run(marked.clone()), 4);
    let refused = threshold(marked.clone(), 0, 2, 999, 3);
    examples.check("a refused frame agrees nothing", (refused.0, in_a_run(refused.1)), (4, 4));
    let agreed = threshold(marked, 0, 2, 25_000, 3).1;
    examples.check("after the first accepted frame it does not", in_a_run(agreed), 0);
    examples.check("order comes before congestion", packet(received(&[0]), 4, 0, true, Ce).1.cause, ORDER);
}

/// The bytes of an ACK in a room that holds it.
fn ack_of(record: &Record) -> Vec<u8> {
    let mut buffer = [0; 64];
    let (_, length, _) = write(record.clone(), 0, false, &mut buffer);
    buffer[..length].to_vec()
}

/// Document 02, No. 12.
fn confirmations(examples: &mut Examples) {
    let empty = open(1000, 3, 25, 1000).1;
    examples.check("a confirmation before the first packet gives 8", confirm(empty.clone(), 0), (8, empty.clone()));
    examples.check("of 2^62 it gives 5, before 8", confirm(empty.clone(), LARGEST + 1), (5, empty));
    let unwritten = received(&[0, 1, 3, 4, 5]);
    examples.check("A absent gives 19", confirm(unwritten.clone(), 0), (NOT_ACKNOWLEDGED, unwritten.clone()));
    let written = write(unwritten, 0, false, &mut [0; 64]).2;
    let later = packet(written, 7, 0, true, Unmarked).1;
    examples.check("6, above A and below L, gives 19", confirm(later.clone(), 6), (NOT_ACKNOWLEDGED, later.clone()));
    for (k, floor, bytes) in
        [(0, 1, "02 07 00 02 00 00 02 00 00"), (1, 2, "02 07 00 01 00 00 02"), (3, 4, "02 07 00 01 00 00 01")]
    {
        let (result, next) = confirm(later.clone(), k);
        examples.check(&format!("{k} confirmed: the floor is {floor}"), (result, next.confirmed), (0, floor));
        examples.check("  and the ACK goes down to it", ack_of(&next), hex(bytes));
    }
    let confirmed = confirm(later.clone(), 5).1;
    examples.check("5, which is A, confirmed: the floor is 6", confirmed.confirmed, 6);
    examples.check("  and the ACK has the range of 7 alone", ack_of(&confirmed), hex("02 07 00 00 00"));
    examples.check("  3 gives 7 though it was received", packet(confirmed.clone(), 3, 0, true, Unmarked), (7, confirmed.clone()));
    examples.check(
        "  2, which was missing, gives 7 too",
        packet(confirmed.clone(), 2, 0, true, Unmarked),
        (7, confirmed.clone()),
    );
    examples.check("  6 is accepted", packet(confirmed.clone(), 6, 0, true, Unmarked).0, 0);
    examples.check("  a smaller number leaves the floor", confirm(confirmed.clone(), 2), (0, confirmed));
    let all = write(later, 0, false, &mut [0; 64]).2;
    let alone = confirm(all, 7).1;
    examples.check("7, which is L, confirmed: the floor is 7", alone.confirmed, 7);
    examples.check("  and the ACK still has 7", ack_of(&alone), hex("02 07 00 00 00"));
    examples.check("  7 gives 6", packet(alone.clone(), 7, 0, true, Unmarked).0, 6);
    let mut above = alone.clone();
    above.confirmed = 8;
    examples.check("a floor above L gives 1", confirm(above.clone(), 7), (1, above));
    let far = packet(alone, 2000, 0, true, Unmarked).1;
    examples.check("at L 2,000 the window's own floor is the larger", (far.confirmed, far.floor()), (7, 977));
    examples.check("  976 gives 7", packet(far.clone(), 976, 0, true, Unmarked).0, 7);
    examples.check("  977 is accepted", packet(far, 977, 0, true, Unmarked).0, 0);
    let mut unreceived = open(1, 1, 25, 1000).1;
    unreceived.confirmed = 1;
    examples.check("a floor while nothing was received gives 1", timer(unreceived.clone(), 0), (1, unreceived));
}

/// "the larger of it and the window's own floor is used for .. missing numbers"
fn confirmed_gaps(examples: &mut Examples) {
    let three = write(received(&[0, 1, 3]), 0, false, &mut [0; 64]).2;
    let then = |record: Record| [4, 5].iter().fold(record, |record, number| packet(record, *number, 0, true, Unmarked).1).cause;
    examples.check("R 3, 2 missing, 3 acknowledged: 5 is due", then(three.clone()), ORDER);
    examples.check("  with 3 confirmed it is not", then(confirm(three.clone(), 3).1), NOT_DUE);
    examples.check("  with 1 confirmed it is: 2 is the floor", then(confirm(three, 1).1), ORDER);
    let first = packet(open(1000, 1, 25, 1000).1, 0, 0, true, Unmarked).1;
    let quiet = write(packet(first, 5, 0, false, Unmarked).1, 0, false, &mut [0; 64]).2;
    examples.check(
        "R 1, 0 and 5, which is not ack-eliciting: 6 is due",
        packet(quiet.clone(), 6, 0, true, Unmarked).1.cause,
        ORDER,
    );
    let confirmed = confirm(quiet, 5).1;
    examples.check("  with 5 confirmed it is not", packet(confirmed, 6, 0, true, Unmarked).1.cause, NOT_DUE);
}
