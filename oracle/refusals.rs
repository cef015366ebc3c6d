//! The refusal numbers of document 01, "Refusal numbers", and of document 02: each line is the paper's own.

/// What a call gives that is not refused.
pub const ACCEPTED: u64 = 0;
/// "the record handed in is not consistent"
pub const INCONSISTENT: u64 = 1;
/// "the bytes end inside a field"
pub const ENDS: u64 = 2;
/// "the frame type is another one, or not in shortest form"
pub const OTHER_TYPE: u64 = 3;
/// "a delay breaks the delay rule"
pub const DELAY: u64 = 4;
/// "a number, threshold or time is above 2^62 - 1, or a signed value is outside its range"
pub const TOO_LARGE: u64 = 5;
/// "the packet number lies in the window and was received"
pub const REPEATED: u64 = 6;
/// "the packet number lies below the window"; by document 02, No. 12, below the larger of the two floors.
pub const BELOW_WINDOW: u64 = 7;
/// "a write or IMMEDIATE_ACK call comes and nothing has been received yet"; "for this call too" (document 02, No. 12).
pub const NOTHING_YET: u64 = 8;
/// "the smallest permitted output does not fit the room, the lent buffer's length; for the ACK reader, all the frame's ranges"
pub const NO_ROOM: u64 = 9;
/// "a report's metric count, metric types or entry count break their rule"
pub const COUNT_OR_TYPE: u64 = 10;
/// "total differs from received + late + lost"
pub const SUM: u64 = 11;
/// "an entry record breaks its rule"
pub const ENTRY: u64 = 12;
/// "bytes remain after a report"
pub const BYTES_BEHIND: u64 = 13;
/// "an ACK range goes below number 0"
pub const BELOW_ZERO: u64 = 14;
/// "Report readers refuse a longer form": "given at the field, before 10 and 11" (document 02, No. 5)
pub const LONGER_FORM: u64 = 15;
/// "an acknowledged number never sent" (document 02, No. 9)
pub const NEVER_SENT: u64 = 16;
/// "an object outside the 256" (document 02, No. 4)
pub const OUTSIDE: u64 = 17;
/// "a profile other than 1 or 2" (document 02, No. 10)
pub const OTHER_PROFILE: u64 = 18;
/// "k is above A or A is absent" (document 02, No. 12)
pub const NOT_ACKNOWLEDGED: u64 = 19;
/// Document 02, No. 13: "a report longer than 8,192 bytes, which is skipped"
pub const TOO_LONG: u64 = 20;
/// "it answers 'stale', and nothing changes": no refusal; a number that no refusal has.
pub const STALE: u64 = 255;
