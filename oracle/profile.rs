//! Document 02, No. 10: the two profiles of a report, and an entry's record in each.

use crate::numbers::{high_first, LARGEST};
use crate::refusals::{ENTRY, OTHER_PROFILE};

/// "records of 16 bytes, no header": those of profile 1.
pub const RECORD: usize = 16;
/// "group (8 bytes ..), then the present 16"
const GROUP: usize = 8;
/// "types strictly rising, from 0x02, 0x04, 0x10, 0x12"
const TYPES: [u64; 4] = [0x02, 0x04, 0x10, 0x12];

/// "The caller passes the profile."
#[derive(Clone, Copy, Debug, PartialEq, Eq)]
pub enum Profile {
    One,
    Two,
}

impl Profile {
    /// "18 for a profile other than 1 or 2, first"
    pub fn of(number: u64) -> Result<Profile, u64> {
        match number {
            1 => Ok(Profile::One),
            2 => Ok(Profile::Two),
            _ => Err(OTHER_PROFILE),
        }
    }

    /// "Profile 2 has 24-byte records"
    pub fn record(self) -> usize {
        match self {
            Profile::One => RECORD,
            Profile::Two => GROUP + RECORD,
        }
    }

    /// "At most 4 metrics"; in profile 2 "up to 8 metrics".
    pub fn most_metrics(self) -> usize {
        match self {
            Profile::One => 4,
            Profile::Two => 8,
        }
    }

    /// "Unknown even metric types are allowed"
    pub fn allows(self, kind: u64) -> bool {
        match self {
            Profile::One => TYPES.contains(&kind),
            Profile::Two => kind % 2 == 0,
        }
    }
}

#[derive(Clone, Copy, Debug, PartialEq, Eq)]
pub struct Entry {
    /// 0 in profile 1, which has no groups.
    pub group: u64,
    pub object: u64,
    /// "0 received, 1 late, 2 not received, 3 partial"
    pub status: u64,
    /// "age in microseconds at the timestamp"
    pub age: u64,
}

/// "An entry: object number (8 bytes, high first, at most 2^62 - 1), status (1 byte: 0 received, 1 late, 2 not received,
/// 3 partial), three zero bytes, age in microseconds at the timestamp (4 bytes; 0 where status is 2, any value otherwise)."
/// In profile 2 "group (8 bytes, at most 2^62 - 1)" before that.
pub fn read_record(profile: Profile, record: &[u8]) -> Result<Entry, u64> {
    let (group, rest) = record.split_at(profile.record() - RECORD);
    let (object, status, age) = (high_first(&rest[..8]), u64::from(rest[8]), high_first(&rest[12..]));
    let entry = Entry { group: high_first(group), object, status, age };
    let age_obeys = status != 2 || age == 0;
    if entry.group > LARGEST || object > LARGEST || status > 3 || rest[9..12] != [0, 0, 0] || !age_obeys {
        return Err(ENTRY);
    }
    Ok(entry)
}

/// Every record by itself, and "Object numbers rise strictly." In profile 2 "They rise by group, then object."
pub fn judge_records(profile: Profile, records: &[u8]) -> Result<(), u64> {
    let mut earlier = None;
    for record in records.chunks(profile.record()) {
        let entry = read_record(profile, record)?;
        let place = Some((entry.group, entry.object));
        if place <= earlier {
            return Err(ENTRY);
        }
        earlier = place;
    }
    Ok(())
}
