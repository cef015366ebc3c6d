//! Examples of document 02, No. 2: frames of type 03 by hand from the layout of RFC 9000, sections 19.3 and 19.3.2, and the
//! totals that a receiver keeps.

use crate::example_lines::{hex, Examples};
use crate::frames::{read_ack, read_ack_into, Ack, Counts};
use crate::numbers::LARGEST;
use crate::receiver::{immediate, open, packet, timer, write};
use crate::record::Mark::{self, Ce, Ect0, Ect1, Unmarked};
use crate::record::{Record, Totals};
use crate::replay::mark_of;

pub fn check(examples: &mut Examples) {
    layouts(examples);
    faults(examples);
    totals(examples);
    limits(examples);
    writes(examples);
    flags(examples);
}

/// "ECT0 Count (i), ECT1 Count (i), ECN-CE Count (i)" behind the ranges, each a number on the wire.
fn layouts(examples: &mut Examples) {
    let two = vec![(3, 5), (0, 1)];
    for (name, bytes, ranges, counts, used) in [
        ("counts of a byte each", "03 05 00 01 02 00 01 07 08 09", two.clone(), [7, 8, 9], 10),
        ("what follows the frame is not read", "03 05 00 01 02 00 01 07 08 09 0a", two.clone(), [7, 8, 9], 10),
        ("no count but 0", "03 00 00 00 00 00 00 00", vec![(0, 0)], [0, 0, 0], 8),
        ("one, two and four bytes", "03 05 00 00 02 3f 7f ff bf ff ff ff", vec![(3, 5)], [63, 16_383, 1_073_741_823], 12),
        ("two bytes", "03 05 00 00 02 40 40 52 8c 40 64", vec![(3, 5)], [64, 4_748, 100], 11),
        ("four bytes", "03 05 00 00 02 80 00 40 00 00 80 01 00 00", vec![(3, 5)], [16_384, 0, 65_536], 14),
        (
            "eight bytes",
            "03 05 00 00 02 ff ff ff ff ff ff ff ff c0 00 00 00 40 00 00 00 01",
            vec![(3, 5)],
            [LARGEST, 1_073_741_824, 1],
            22,
        ),
        ("in longer forms", "03 40 05 00 00 02 40 07 80 00 00 08 c0 00 00 00 00 00 00 09", vec![(3, 5)], [7, 8, 9], 20),
    ] {
        let [ect0, ect1, ce] = counts;
        let wanted = Ack { largest: ranges[0].1, delay: 0, ranges, counts: Some(Counts { ect0, ect1, ce }), used };
        examples.check(&format!("RFC 9000 19.3.2, {name}: {bytes}"), read_ack(&hex(bytes)), Ok(wanted));
    }
    let plain = read_ack(&hex("02 05 00 01 02 00 01 07 08 09"));
    examples.check("type 02 has no counts", plain.map(|ack| (ack.counts, ack.used)), Ok((None, 7)));
}

fn faults(examples: &mut Examples) {
    let whole = hex("03 05 00 01 02 00 01 40 40 80 01 00 00 c0 00 00 00 40 00 00 00");
    for end in 0..whole.len() {
        examples.check(&format!("03 cut at byte {end} gives 2"), read_ack(&whole[..end]), Err(2));
    }
    for (bytes, result) in [
        ("40 03 05 00 00 02 07 08 09", 3),
        ("80 00 00 03 05 00 00 02 07 08 09", 3),
        ("c0 00 00 00 00 00 00 03 05 00 00 02 07 08 09", 3),
        ("03 05 00 00 06 07 08 09", 14),
        ("03 05 00 01 04 02", 14),
    ] {
        examples.check(&format!("'{bytes}' gives {result}"), read_ack(&hex(bytes)), Err(result));
    }
    let mut lent = [7; 5];
    let found = read_ack_into(&whole, &mut lent[..3]).map(|ack| ack.used);
    examples.check("03 with room for three numbers gives 9", (found, lent), (Err(9), [7; 5]));
    let found = read_ack_into(&whole[..whole.len() - 1], &mut lent[..3]).map(|ack| ack.used);
    examples.check("cut inside the counts it gives 2 before 9", (found, lent), (Err(2), [7; 5]));
    let found = read_ack_into(&whole, &mut lent).map(|ack| ack.used);
    examples.check("its ranges are those of 02", (found, lent), (Ok(21), [3, 5, 0, 1, 7]));
}

/// Packets in order from 0, each ack-eliciting or not and with its mark.
fn after(packets: &[(bool, Mark)]) -> Record {
    let opened = open(1000, 3, 25, 1000).1;
    (0..).zip(packets).fold(opened, |record, (number, (eliciting, mark))| packet(record, number, 0, *eliciting, *mark).1)
}

fn totals(examples: &mut Examples) {
    let opened = open(1, 1, 25, 1000).1;
    examples.check("an opening has totals of 0", opened.totals, Totals::default());
    let record = after(&[(true, Ect0), (false, Ect0), (true, Ce), (false, Unmarked), (true, Ect0), (false, Ect1), (false, Ce)]);
    let wanted = Totals { ect0: 3, ect1: 1, ce: 2, unmarked: 1 };
    examples.check("totals count packets of both kinds", record.totals, wanted);
    let (result, next) = packet(record.clone(), 3, 0, true, Ect1);
    examples.check("a refused packet counts nowhere", (result, next.totals), (6, wanted));
    let (result, next) = packet(record.clone(), LARGEST + 1, 0, true, Ce);
    examples.check("nor does one with a number above 2^62 - 1", (result, next.totals), (5, wanted));
    examples.check("a write leaves the totals", write(record.clone(), 0, true, &mut [0; 64]).2.totals, wanted);
    examples.check("so does a timer", timer(record, LARGEST).1.totals, wanted);
    let ect = after(&[(true, Ect0), (true, Ect1)]);
    examples.check("ECT(0) and ECT(1) make nothing due", (ect.cause, ect.ce), (0, 0));
}

fn limits(examples: &mut Examples) {
    for (name, mark) in [("ECT(0)", Ect0), ("ECT(1)", Ect1), ("CE", Ce), ("unmarked ones", Unmarked)] {
        let mut record = after(&[(true, Unmarked)]);
        *record.totals.of(mark) = LARGEST - 1;
        let first = packet(record, 1, 0, false, mark).1;
        let mut second = packet(first.clone(), 2, 0, false, mark).1;
        let stays = (*first.clone().totals.of(mark), *second.totals.of(mark));
        examples.check(&format!("the total of {name} stays at 2^62 - 1"), stays, (LARGEST, LARGEST));
        examples.check("  such a record is consistent", immediate(second.clone()).0, 0);
        *second.totals.of(mark) = LARGEST + 1;
        examples.check("  with one more it gives 1", immediate(second.clone()), (1, second));
    }
    let mut opened = open(1, 1, 25, 1000).1;
    opened.totals = Totals { ect0: LARGEST, ect1: LARGEST, ce: LARGEST, unmarked: 9 };
    examples.check("nothing is asked of their sum, also before the first packet", timer(opened, 0).0, 0);
}

/// P6 and P7 with counts: 0, 1, 3, 4, 5 received, marked ECT(0) but for the last, which has CE.
fn writes(examples: &mut Examples) {
    let marked = [(0, Ect0), (1, Ect0), (3, Ect0), (4, Ect0), (5, Ce)];
    let record =
        marked.iter().fold(open(1000, 3, 25, 1000).1, |record, (number, mark)| packet(record, *number, 0, true, *mark).1);
    for room in 0..13 {
        let wanted = match room {
            0..=7 => Err(9),
            8 | 9 => Ok(hex("03 05 00 00 02 04 00 01")),
            _ => Ok(hex("03 05 00 01 02 00 01 04 00 01")),
        };
        let mut buffer = vec![0xee; room];
        let (result, length, next) = write(record.clone(), 0, true, &mut buffer);
        let stays = buffer[length..].iter().all(|byte| *byte == 0xee);
        let found = if result == 0 { Ok(buffer[..length].to_vec()) } else { Err(result) };
        examples.check(&format!("03 of P6's ranges in room {room}"), (found, stays), (wanted, true));
        let settled = if result == 0 { (next.acknowledged, next.pending, next.cause) == (Some(5), 0, 0) } else { next == record };
        examples.check("  the record is as after 02, or as it came", settled, true);
    }
    let mut wide = record;
    wide.totals = Totals { ect0: 64, ect1: 16_384, ce: 1_073_741_824, unmarked: LARGEST };
    let mut buffer = [0; 21];
    let (_, length, _) = write(wide.clone(), 0, true, &mut buffer);
    let bytes = hex("03 05 00 01 02 00 01 40 40 80 00 40 00 c0 00 00 00 40 00 00 00");
    examples.check("counts of two, four and eight bytes", buffer[..length].to_vec(), bytes);
    let (_, length, _) = write(wide, 0, true, &mut buffer[..20]);
    examples.check(
        "  a byte less leaves the older range out",
        buffer[..length].to_vec(),
        [&hex("03 05 00 00 02")[..], &hex("40 40 80 00 40 00 c0 00 00 00 40 00 00 00")].concat(),
    );
}

fn flags(examples: &mut Examples) {
    for (flags, mark) in
        [(0, Unmarked), (1, Unmarked), (2, Ce), (4, Ect0), (8, Ect1), (6, Ce), (10, Ce), (12, Ect0), (15, Ce), (0xf0, Unmarked)]
    {
        examples.check(&format!("the replay's flags {flags} are {mark:?}"), mark_of(flags), mark);
    }
}
