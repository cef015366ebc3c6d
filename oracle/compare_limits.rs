//! Document 02, No. 8: reports of up to 200 entries, at the edges of the limit and of the count's two lengths, with every kind
//! of maximum; and that more room, or a higher maximum, never drops an entry that was kept with less.

use crate::archive::Written;
use crate::compare_report::{compare_readers, compare_written};
use crate::made_up_report::{break_header, header, numbers_of, profile, profile_of, records};
use crate::numbers::{append, width};
use crate::random::Random;
use crate::refusals::{ACCEPTED, COUNT_OR_TYPE, ENTRY, NO_ROOM, SUM, TOO_LARGE};
use crate::report::{read_report, read_report_up_to, Header, MOST_ENTRIES, MOST_OF_OLD};
use crate::tally::Tally;

/// Counts of entries, and maxima, that must be seen.
const COUNTS: [u64; 12] = [0, 1, 50, 51, 63, 64, 65, 199, 200, 201, 255, 256];
const MAXIMA: [u64; 9] = [0, 50, 51, 63, 64, 199, 200, 201, u64::MAX];
/// A room in which every report fits.
const AMPLE: usize = 5000;

/// What a report is made of: the profile's number, the header, and the records.
struct Given<'a> {
    profile: u64,
    header: &'a Header,
    records: &'a [u8],
}

impl Given<'_> {
    /// How many bytes a record takes.
    fn size(&self) -> usize {
        profile_of(self.profile).record()
    }

    fn count(&self) -> u64 {
        (self.records.len() / self.size()) as u64
    }

    /// The numbers up to the entry count.
    fn numbers(&self) -> Vec<u64> {
        numbers_of(profile_of(self.profile), self.header, self.count())
    }

    fn write(&self, random: &mut Random, tally: &mut Tally, room: usize, maximum: u64) -> Result<(Written, Vec<u8>), String> {
        compare_written(random, tally, self.profile, (self.header, self.records), room, maximum)
    }
}

/// One header with each count of records and each maximum, and reports of so many entries as they stand on the wire.
pub fn round(random: &mut Random, tally: &mut Tally) -> Result<(), String> {
    let profile = profile(random);
    let header = header(random, profile_of(profile));
    for count in COUNTS {
        let records = records(random, profile_of(profile), count);
        let given = Given { profile, header: &header, records: &records };
        compare_read(random, tally, &given)?;
        for maximum in MAXIMA {
            compare_faults(random, tally, &given, maximum)?;
            let (written, bytes) = given.write(random, tally, AMPLE, maximum)?;
            tally.note("10 for a maximum of 201", maximum == 201 && written.result == COUNT_OR_TYPE);
            tally.note("10 for a maximum of 2^64 - 1", maximum == u64::MAX && written.result == COUNT_OR_TYPE);
            if written.result != ACCEPTED {
                continue;
            }
            note_kept(tally, written.kept, count, maximum);
            compare_readers(random, tally, profile, &bytes)?;
            judge_old(tally, profile, maximum, &bytes)?;
            compare_rooms(random, tally, &given, maximum)?;
        }
    }
    Ok(())
}

/// A report of so many entries, whether a writer would make it or not.
fn compare_read(random: &mut Random, tally: &mut Tally, given: &Given) -> Result<(), String> {
    let count = given.count();
    let mut bytes = Vec::new();
    given.numbers().iter().for_each(|number| append(&mut bytes, *number));
    bytes.extend_from_slice(given.records);
    compare_readers(random, tally, given.profile, &bytes)?;
    let result = read_report(given.profile, &bytes).err().unwrap_or(ACCEPTED);
    tally.note("a report of 200 entries read", count == 200 && result == ACCEPTED);
    tally.note("a report of 201 entries refused with 10", count == 201 && result == COUNT_OR_TYPE);
    Ok(())
}

/// Another fault beside the maximum: those of the header come first, those of the records behind it.
fn compare_faults(random: &mut Random, tally: &mut Tally, given: &Given, maximum: u64) -> Result<(), String> {
    let mut broken = *given.header;
    break_header(random, profile_of(given.profile), &mut broken);
    let (written, _) = Given { header: &broken, ..*given }.write(random, tally, AMPLE, maximum)?;
    tally.note("5 before a maximum above 200", maximum > MOST_ENTRIES && written.result == TOO_LARGE);
    tally.note("11 before a maximum above 200", maximum > MOST_ENTRIES && written.result == SUM);
    let odd = [given.records, &[0]].concat();
    let (written, _) = Given { records: &odd, ..*given }.write(random, tally, AMPLE, maximum)?;
    tally.note("12 for the records' length, where the maximum is in order", written.result == ENTRY);
    tally.note("10 for the maximum, before 12", maximum > MOST_ENTRIES && written.result == COUNT_OR_TYPE);
    let (written, _) = given.write(random, tally, 0, maximum)?;
    tally.note("10 for the maximum, before 9", maximum > MOST_ENTRIES && written.result == COUNT_OR_TYPE);
    Ok(())
}

fn note_kept(tally: &mut Tally, kept: u64, given: u64, maximum: u64) {
    tally.note("63 entries written", kept == 63);
    tally.note("64 entries written", kept == 64);
    tally.note("65 entries written", kept == 65);
    tally.note("199 entries written", kept == 199);
    tally.note("200 entries written, which is all", kept == 200 && given == 200);
    tally.note("200 entries written of 201", kept == 200 && given == 201);
    tally.note("200 entries written of 256", kept == 200 && given == 256);
    tally.note("no entry written for a maximum of 0", kept == 0 && given > 0 && maximum == 0);
    tally.note("50 entries written for an old receiver", kept == 50 && given > 50 && maximum == 50);
}

/// "for old receivers, which refuse more than 50 with 10"
fn judge_old(tally: &mut Tally, profile: u64, maximum: u64, bytes: &[u8]) -> Result<(), String> {
    let old = read_report_up_to(MOST_OF_OLD, profile, bytes);
    if maximum <= MOST_OF_OLD && old != read_report(profile, bytes) {
        return Err(format!("an old receiver reads {old:?} of a report that was written for it: {bytes:?}"));
    }
    tally.note("an old receiver accepts what was written with maximum 50", maximum == 50 && old.is_ok());
    tally.note("an old receiver refuses what was written with maximum 51", maximum == 51 && old == Err(COUNT_OR_TYPE));
    Ok(())
}

/// The same in rooms around an edge, each with the room before: what was kept there is the end of what is kept now.
fn compare_rooms(random: &mut Random, tally: &mut Tally, given: &Given, maximum: u64) -> Result<(), String> {
    let start: usize = given.numbers().iter().map(|number| width(*number)).sum::<usize>() - width(given.count());
    let edge = random.one_of(&[0, 1, 62, 63, 64, 65, 199, 200]) as usize;
    let exact = start + width(edge as u64) + given.size() * edge;
    let (below, above) = (exact.saturating_sub(3), exact + given.size() + 3);
    let step = random.one_of(&[1, 1, 5]) as usize;
    compare_more(random, tally, given, (below..=above).step_by(step).map(|room| (room, maximum)))?;
    let holds_all_but_the_count = start + 1 + given.size() * 64;
    let (written, _) = given.write(random, tally, holds_all_but_the_count, maximum)?;
    let more = given.count() >= 64 && maximum >= 64;
    tally.note("63 entries where 64 lack the count's second byte", more && written.kept == 63);
    Ok(())
}

/// Rooms and maxima that rise: what each keeps ends in what the one before kept.
fn compare_more(
    random: &mut Random,
    tally: &mut Tally,
    given: &Given,
    rising: impl Iterator<Item = (usize, u64)>,
) -> Result<(), String> {
    let mut before: Option<Vec<u8>> = None;
    for (room, maximum) in rising {
        let (written, bytes) = given.write(random, tally, room, maximum)?;
        if written.result == NO_ROOM && before.is_some() {
            return Err(format!("{room} bytes are refused where fewer were not"));
        }
        if written.result != ACCEPTED {
            continue;
        }
        let kept = bytes[bytes.len() - given.size() * written.kept as usize..].to_vec();
        if before.as_ref().map_or(false, |before| !kept.ends_with(before)) {
            return Err(format!("{room} bytes and maximum {maximum} drop an entry that was kept with less"));
        }
        tally.note("an entry more, and none dropped", before.map_or(false, |before| kept.len() > before.len()));
        before = Some(kept);
    }
    Ok(())
}

/// Of each profile one report of 200 entries in every room with the same maximum, then with every maximum in the same room.
pub fn everywhere(random: &mut Random, tally: &mut Tally) -> Result<(), String> {
    for profile in [1, 2] {
        let header = header(random, profile_of(profile));
        let records = records(random, profile_of(profile), 200);
        let given = Given { profile, header: &header, records: &records };
        compare_more(random, tally, &given, (0..=AMPLE).map(|room| (room, MOST_ENTRIES)))?;
        compare_more(random, tally, &given, (0..=MOST_ENTRIES).map(|maximum| (AMPLE, maximum)))?;
    }
    tally.note("200 entries in every room, and with every maximum", true);
    Ok(())
}
