//! Document 02, No. 11: the newest lost object of a report, sought from the end of the records.

use crate::profile::{read_record, Profile};
use crate::refusals::{BYTES_BEHIND, ENTRY};
use crate::report::{read_header, MOST_ENTRIES};

/// "the last object marked not received": that status.
pub const NOT_RECEIVED: u64 = 2;

/// The group and the object of "the last object marked not received", or none.
pub fn newest_lost(profile: u64, bytes: &[u8]) -> Result<Option<(u64, u64)>, u64> {
    let profile = Profile::of(profile)?;
    let (_, records) = read_header(MOST_ENTRIES, profile, bytes)?;
    // "13 comes first if bytes remain"
    if records.end < bytes.len() {
        return Err(BYTES_BEHIND);
    }
    search(profile, &bytes[records])
}

/// "Search from the end of the records and stop at the first one found." "a bad record among those read, the found one and the
/// order among them included, gives 12"
fn search(profile: Profile, records: &[u8]) -> Result<Option<(u64, u64)>, u64> {
    let mut later = None;
    for record in records.rchunks(profile.record()) {
        let entry = read_record(profile, record)?;
        let place = (entry.group, entry.object);
        if later.map_or(false, |later| place >= later) {
            return Err(ENTRY);
        }
        if entry.status == NOT_RECEIVED {
            return Ok(Some(place));
        }
        later = Some(place);
    }
    Ok(None)
}
