//! Document 02, No. 14: packet, timer and write on a lent record. "Each gives the answers and the record of the present call,
//! refusals included." So each is held to what the papers answer to the call by value: the result, every field of the record,
//! and the memory around it.

use crate::archive::*;
use crate::compare_receiver::Choice;
use crate::tally::{leaves, Call, Lent, Tally};

/// Number, time, whether it is ack-eliciting, and the ECN field.
type Packet = (u64, u64, bool, u64);

pub fn compare_packet_lent(tally: &mut Tally, given: &Receiver, packet: Packet, papers: Answer) -> Result<(), String> {
    let (number, time, eliciting, ecn) = packet;
    let archive = leaves(given, |lent| unsafe { lumbixet_packet_lent(lent, number, time, eliciting, ecn) })?;
    let call = Call { name: "packet_lent", result: papers.result, given: &(packet, given) };
    tally.compare(call, (papers.result, papers.next), archive)
}

pub fn compare_timer_lent(tally: &mut Tally, given: &Receiver, time: u64, papers: Answer) -> Result<(), String> {
    let archive = leaves(given, |lent| unsafe { lumbixet_timer_lent(lent, time) })?;
    let call = Call { name: "timer_lent", result: papers.result, given: &(time, given) };
    tally.compare(call, (papers.result, papers.next), archive)
}

/// The papers' answer stands beside the memory that they wrote to; `lent` is that memory as it was before.
pub fn compare_write_lent(
    tally: &mut Tally,
    given: &Receiver,
    choice: Choice,
    (papers, papers_lent): (&Wrote, &Lent),
    mut lent: Lent,
) -> Result<(), String> {
    let Choice { time, counts, room } = choice;
    let start = lent.buffer().as_mut_ptr();
    let (wrote, next) = leaves(given, |record| unsafe { lumbixet_write_lent(record, time, counts, start, room) })?;
    let archive = Wrote { result: wrote.result, length: wrote.length, next };
    let name = if counts { "write_lent 03" } else { "write_lent 02" };
    let call = Call { name, result: papers.result, given: &(choice, given) };
    tally.compare(call, (*papers, &papers_lent.memory), (archive, &lent.memory))
}
