//! Why a call was refused, and why an acknowledgment is due: the paper's numbers, named.

use core::fmt;

/// Why a call was refused. A refused call changes nothing: no record, no element of a lent slice. [`Pieces`](crate::Pieces) alone
/// leaves the entries that came before the fault.
#[derive(Clone, Copy, Debug, PartialEq, Eq, Hash)]
#[non_exhaustive]
pub enum Refusal {
    /// 1: the record handed in is not consistent.
    Inconsistent,
    /// 2: the bytes end inside a field.
    Ends,
    /// 3: the frame type is another one, or not in shortest form.
    OtherType,
    /// 4: a delay breaks the delay rule.
    Delay,
    /// 5: a number, threshold or time is above 2^62 - 1, or a signed value is outside its range.
    TooLarge,
    /// 6: the packet number lies in the window and was received.
    Repeated,
    /// 7: the packet number lies below the window, or below what the sender has confirmed.
    BelowWindow,
    /// 8: a write, IMMEDIATE_ACK or confirmation comes before anything was received.
    NothingYet,
    /// 9: the smallest permitted output does not fit the lent slice; for the ACK reader, all the frame's ranges.
    NoRoom,
    /// 10: a report's metric count, metric types or entry count break their rule.
    CountOrType,
    /// 11: total differs from received + late + lost.
    Sum,
    /// 12: an entry record breaks its rule.
    Entry,
    /// 13: bytes remain after a report.
    BytesBehind,
    /// 14: an ACK range goes below number 0.
    BelowZero,
    /// 15: a report's number is not in its shortest form.
    LongerForm,
    /// 16: of the loss list: the frame acknowledges a number that was never sent.
    NeverSent,
    /// 17: the object is none of the 256 that are tracked.
    Outside,
    /// 18: the report's profile is neither 1 nor 2; [`Profile`](crate::Profile) has no other, so no call of this crate gives it.
    OtherProfile,
    /// 19: the confirmed number is above the largest acknowledged, or none is acknowledged.
    NotAcknowledged,
    /// 20: of a week's totals: the report is longer than 8,192 bytes.
    TooLong,
    /// A number that this version does not name; the archive that goes with it gives none.
    Unknown(u64),
}

use Refusal::*;

/// Each with its number and its words.
const REFUSALS: [(u64, Refusal, &str); 20] = [
    (1, Inconsistent, "the record is not consistent"),
    (2, Ends, "the bytes end inside a field"),
    (3, OtherType, "the frame type is another one"),
    (4, Delay, "a delay breaks the delay rule"),
    (5, TooLarge, "a number is too large"),
    (6, Repeated, "this packet was received before"),
    (7, BelowWindow, "this packet lies below the window"),
    (8, NothingYet, "nothing has been received yet"),
    (9, NoRoom, "the output does not fit the room"),
    (10, CountOrType, "a metric count, metric type or entry count breaks its rule"),
    (11, Sum, "the total differs from its parts"),
    (12, Entry, "an entry breaks its rule"),
    (13, BytesBehind, "bytes remain after the report"),
    (14, BelowZero, "a range goes below number 0"),
    (15, LongerForm, "a number is not in its shortest form"),
    (16, NeverSent, "a number is acknowledged that was never sent"),
    (17, Outside, "the object is none of those tracked"),
    (18, OtherProfile, "the profile is another one"),
    (19, NotAcknowledged, "this number was not acknowledged yet"),
    (20, TooLong, "the report is too long"),
];

impl Refusal {
    /// The refusal of a number, as a log has it.
    #[must_use]
    pub fn from_number(number: u64) -> Refusal {
        let named = REFUSALS.iter().find(|(own, _, _)| *own == number);
        named.map_or(Unknown(number), |(_, refusal, _)| *refusal)
    }

    /// The number that documents 01 and 02 give it.
    #[must_use]
    pub fn number(self) -> u64 {
        match self {
            Unknown(number) => number,
            named => REFUSALS.iter().find(|(_, refusal, _)| *refusal == named).map_or(0, |(own, _, _)| *own),
        }
    }
}

impl fmt::Display for Refusal {
    fn fmt(&self, f: &mut fmt::Formatter<'_>) -> fmt::Result {
        let named = REFUSALS.iter().find(|(_, refusal, _)| refusal == self);
        f.write_str(named.map_or("unknown", |(_, _, text)| text))
    }
}

#[cfg(feature = "std")]
impl std::error::Error for Refusal {}

/// 0 is accepted, every other result a refusal.
pub(crate) fn accepted(result: u64) -> Result<(), Refusal> {
    match result {
        0 => Ok(()),
        number => Err(Refusal::from_number(number)),
    }
}

/// Why an acknowledgment is due.
#[derive(Clone, Copy, Debug, PartialEq, Eq, Hash)]
#[non_exhaustive]
pub enum Cause {
    /// 1: the sender asked by IMMEDIATE_ACK.
    Immediate,
    /// 2: more ack-eliciting packets came than the threshold.
    Count,
    /// 3: packets are missing or came out of order.
    Order,
    /// 4: a packet had the CE mark: before the first accepted ACK_FREQUENCY any, then the first of a run.
    Congestion,
    /// 5: the delay in force has passed.
    Timer,
}

/// In the order of their numbers, from 1 on.
const CAUSES: [(Cause, &str); 5] = [
    (Cause::Immediate, "the sender asked for it"),
    (Cause::Count, "more packets came than the threshold"),
    (Cause::Order, "packets are missing or came out of order"),
    (Cause::Congestion, "a packet had a congestion mark"),
    (Cause::Timer, "the delay in force has passed"),
];

impl Cause {
    /// The cause of a number; `None` for 0, nothing is due, and for a number that no consistent record holds.
    #[must_use]
    pub fn from_number(number: u64) -> Option<Cause> {
        CAUSES.iter().zip(1..).find(|(_, own)| *own == number).map(|((cause, _), _)| *cause)
    }

    /// The number of document 01, from 1 to 5.
    #[must_use]
    pub fn number(self) -> u64 {
        CAUSES.iter().zip(1..).find(|((cause, _), _)| *cause == self).map_or(0, |(_, own)| own)
    }
}

impl fmt::Display for Cause {
    fn fmt(&self, f: &mut fmt::Formatter<'_>) -> fmt::Result {
        let named = CAUSES.iter().find(|(cause, _)| cause == self);
        f.write_str(named.map_or("unknown", |(_, text)| text))
    }
}
