//! Document 02, No. 11: the newest lost object, of every made-up report and of reports whose answer is known from how they
//! were made.

use crate::archive::{lumbixet_newest_lost, NewestLost};
use crate::compare_report::{another, named};
use crate::made_up_report::{header, numbers_of, profile_of, records};
use crate::newest::{newest_lost, NOT_RECEIVED};
use crate::numbers::{append, high_first};
use crate::profile::{judge_records, Profile, RECORD};
use crate::random::Random;
use crate::refusals::{ACCEPTED, BYTES_BEHIND, ENDS, ENTRY, OTHER_PROFILE};
use crate::report::{read_entry, read_header, read_report, MOST_ENTRIES};
use crate::tally::{Call, Tally};

/// One call; the answer on which both agree.
pub fn compare_newest(tally: &mut Tally, profile: u64, bytes: &[u8]) -> Result<NewestLost, String> {
    let papers = match newest_lost(profile, bytes) {
        Ok(found) => answer(found),
        Err(result) => refused(result),
    };
    let archive = unsafe { lumbixet_newest_lost(profile, bytes.as_ptr(), bytes.len()) };
    let name = named(profile, ["newest_lost 1", "newest_lost 2", "newest_lost else"]);
    tally.compare(Call { name, result: papers.result, given: &(profile, bytes) }, papers, archive)?;
    let wanted = by_full_reading(profile, bytes);
    if papers != wanted {
        return Err(format!("the full reading gives {wanted:?}, the search {papers:?}: profile {profile}, {bytes:?}"));
    }
    Ok(papers)
}

fn answer(found: Option<(u64, u64)>) -> NewestLost {
    found.map_or(NewestLost::default(), |(group, object)| NewestLost { result: ACCEPTED, found: 1, group, object })
}

fn refused(result: u64) -> NewestLost {
    NewestLost { result, ..NewestLost::default() }
}

/// The request's sentences in their order, by the reader of whole reports.
fn by_full_reading(profile: u64, bytes: &[u8]) -> NewestLost {
    match read_report(profile, bytes) {
        // "the answer equals the last such entry of the full reading, or 'none'"
        Ok((header, start)) => {
            let entries = (0..header.entries as usize).filter_map(|index| read_entry(profile, &bytes[start..], index).ok());
            answer(entries.filter(|entry| entry.status == NOT_RECEIVED).map(|entry| (entry.group, entry.object)).last())
        }
        Err(ENTRY) => where_a_record_is_bad(profile_of(profile), bytes),
        Err(result) => refused(result),
    }
}

/// "13 comes first if bytes remain; then a bad record among those read, the found one and the order among them included, gives
/// 12. Others are not noticed". Those read are the last one with the status of a lost object and all behind it.
fn where_a_record_is_bad(profile: Profile, bytes: &[u8]) -> NewestLost {
    let (_, records) = read_header(MOST_ENTRIES, profile, bytes).expect("12 comes after the header");
    if records.end < bytes.len() {
        return refused(BYTES_BEHIND);
    }
    let (records, size) = (&bytes[records], profile.record());
    let lost = records.chunks(size).rposition(|record| u64::from(record[size - 8]) == NOT_RECEIVED);
    match judge_records(profile, &records[size * lost.unwrap_or(0)..]) {
        Ok(()) => answer(lost.map(|lost| place_of(&records[size * lost..][..size]))),
        Err(result) => refused(result),
    }
}

/// Group and object of a record.
fn place_of(record: &[u8]) -> (u64, u64) {
    let (group, rest) = record.split_at(record.len() - RECORD);
    (high_first(group), high_first(&rest[..8]))
}

/// A report that is in order: its numbers, and its records.
#[derive(Clone)]
struct Made {
    profile: u64,
    numbers: Vec<u8>,
    records: Vec<u8>,
}

impl Made {
    fn new(random: &mut Random, profile: u64, count: u64) -> Made {
        let header = header(random, profile_of(profile));
        let mut numbers = Vec::new();
        numbers_of(profile_of(profile), &header, count).iter().for_each(|number| append(&mut numbers, *number));
        Made { profile, numbers, records: records(random, profile_of(profile), count) }
    }

    fn size(&self) -> usize {
        profile_of(self.profile).record()
    }

    fn count(&self) -> usize {
        self.records.len() / self.size()
    }

    fn record(&mut self, index: usize) -> &mut [u8] {
        let size = self.size();
        &mut self.records[size * index..][..size]
    }

    /// Gives one object another status, with an age that goes with every status.
    fn set_status(&mut self, index: usize, status: u8) {
        let behind = self.size() - 8;
        self.record(index)[behind..].copy_from_slice(&[status, 0, 0, 0, 0, 0, 0, 0]);
    }

    /// The same with something done to one record.
    fn with(&self, index: usize, change: impl FnOnce(&mut [u8])) -> Made {
        let mut made = self.clone();
        change(made.record(index));
        made
    }

    /// The same with the group and the object of another record in one.
    fn with_place(&self, index: usize, other: usize) -> Made {
        let place = self.size() - 8;
        let from = self.clone().record(other)[..place].to_vec();
        self.with(index, |record| record[..place].copy_from_slice(&from))
    }

    fn bytes(&self) -> Vec<u8> {
        [&self.numbers[..], &self.records].concat()
    }

    /// Compares, and holds the answer to what is known; with a byte behind it is 13, and with one less 2, whatever else.
    fn gives(&self, tally: &mut Tally, moment: &'static str, wanted: NewestLost) -> Result<(), String> {
        let mut bytes = self.bytes();
        let full = read_report(self.profile, &bytes).err();
        let found = compare_newest(tally, self.profile, &bytes)?;
        if found != wanted {
            return Err(format!("{moment}: by the papers it is {found:?}, and not {wanted:?}"));
        }
        tally.note(moment, true);
        bytes.push(0);
        let behind = compare_newest(tally, self.profile, &bytes)?.result == BYTES_BEHIND;
        tally.note("13 before 12", behind && wanted.result == ENTRY);
        tally.note("13 before 12 of a record that is not read", behind && wanted.result == ACCEPTED && full == Some(ENTRY));
        let cut = compare_newest(tally, self.profile, &bytes[..bytes.len() - 2])?.result == ENDS;
        tally.note("2 before 12", cut && wanted.result == ENTRY);
        if !behind || !cut {
            return Err(format!("{moment}: by the papers a byte behind does not give 13, or a byte less not 2"));
        }
        Ok(())
    }
}

/// A record breaks its rule by itself: its status, a zero byte, its object, or the group.
fn break_record(random: &mut Random, record: &mut [u8]) {
    let behind = record.len() - 8;
    match random.below(4) {
        0 => record[behind] = random.between(4, 255) as u8,
        1 => record[behind + random.between(1, 3) as usize] = random.between(1, 255) as u8,
        2 => record[behind - 8] |= random.one_of(&[0x40, 0x80]),
        // in profile 2 the group
        _ => record[0] |= random.one_of(&[0x40, 0x80]),
    }
}

/// "Both profiles."
pub fn round(random: &mut Random, tally: &mut Tally) -> Result<(), String> {
    one_report(random, tally, 1)?;
    one_report(random, tally, 2)
}

/// One report with its newest lost object in a known record, and without any; each then with one thing changed.
fn one_report(random: &mut Random, tally: &mut Tally, number: u64) -> Result<(), String> {
    let count = random.one_of(&[1, 2, 3, 4, 5, 63, 64, 200]);
    let mut made = Made::new(random, number, count);
    let (last, inside) = (count - 1, random.below(count));
    let lost = random.one_of(&[0, inside, inside, last]) as usize;
    for index in lost..count as usize {
        made.set_status(index, random.one_of(&[0, 1, 3]));
    }
    let mut none = made.clone();
    made.set_status(lost, NOT_RECEIVED as u8);
    found(random, tally, &made, lost)?;
    below(random, tally, &made, lost)?;
    read_ones(random, tally, &made, lost)?;
    (0..lost).for_each(|index| none.set_status(index, random.one_of(&[0, 1, 3])));
    nothing_lost(random, tally, &none)
}

fn found(random: &mut Random, tally: &mut Tally, made: &Made, lost: usize) -> Result<(), String> {
    let wanted = answer(Some(place_of(made.clone().record(lost))));
    let moment = match lost {
        _ if made.count() == 1 => "a lost object in the only record",
        0 => "a lost object in the first record",
        _ if lost == made.count() - 1 => "a lost object in the last record",
        _ => "a lost object between others",
    };
    made.gives(tally, moment, wanted)?;
    let other = another(random);
    let result = compare_newest(tally, other, &made.bytes())?.result;
    tally.note("18 where one would be found", result == OTHER_PROFILE);
    if lost > 0 {
        let mut older = made.clone();
        older.set_status(random.below(lost as u64) as usize, NOT_RECEIVED as u8);
        older.gives(tally, "a lost object that is older, and not the answer", wanted)?;
    }
    Ok(())
}

/// What lies below the found record "is not noticed".
fn below(random: &mut Random, tally: &mut Tally, made: &Made, lost: usize) -> Result<(), String> {
    let wanted = answer(Some(place_of(made.clone().record(lost))));
    if lost == 0 {
        return Ok(());
    }
    let index = random.below(lost as u64) as usize;
    made.with(index, |record| break_record(random, record)).gives(tally, "a bad record below the found one", wanted)?;
    made.with_place(lost - 1, lost).gives(tally, "the found one's place again below it", wanted)?;
    let high = |record: &mut [u8]| record[..8].copy_from_slice(&(u64::MAX >> 2).to_be_bytes());
    made.with(lost - 1, high).gives(tally, "a higher place below the found one", wanted)?;
    let mut all = made.clone();
    let end = lost * made.size();
    all.records[..end].copy_from_slice(&random.bytes(end));
    all.gives(tally, "any bytes below the found one", wanted)?;
    let step = 1 + end / 60;
    for place in (random.below(step as u64) as usize..end).step_by(step) {
        let mut other = made.clone();
        other.records[place] ^= random.between(1, 255) as u8;
        other.gives(tally, "each byte below the found one", wanted)?;
    }
    Ok(())
}

/// "a bad record among those read, the found one and the order among them included, gives 12"
fn read_ones(random: &mut Random, tally: &mut Tally, made: &Made, lost: usize) -> Result<(), String> {
    let wanted = refused(ENTRY);
    let aged = |record: &mut [u8]| *record.last_mut().expect("16 or 24 bytes") = 1;
    made.with(lost, aged).gives(tally, "12 for an age of the found one", wanted)?;
    // its status stays that of a lost object
    let place = [0, made.size() - RECORD][random.below(2) as usize];
    made.with(lost, |record| record[place] |= 0x40).gives(tally, "12 for a number of the found one", wanted)?;
    if lost == made.count() - 1 {
        return Ok(());
    }
    let index = random.between(lost as u64 + 1, made.count() as u64 - 1) as usize;
    made.with(index, |record| break_record(random, record)).gives(tally, "12 for a bad record behind the lost one", wanted)?;
    made.with_place(lost + 1, lost).gives(tally, "12 for the found one's place again behind it", wanted)?;
    made.with_place(lost, made.count() - 1).gives(tally, "12 for a found one that is not below the next", wanted)?;
    if index > lost + 1 {
        made.with_place(index, index - 1).gives(tally, "12 for the order behind the lost one", wanted)?;
    }
    Ok(())
}

/// "none" has read all records.
fn nothing_lost(random: &mut Random, tally: &mut Tally, made: &Made) -> Result<(), String> {
    made.gives(tally, "none of some records", answer(None))?;
    Made::new(random, made.profile, 0).gives(tally, "none of no records", answer(None))?;
    let index = random.below(made.count() as u64) as usize;
    let bad = "12 for a bad record where nothing is lost";
    made.with(index, |record| break_record(random, record)).gives(tally, bad, refused(ENTRY))?;
    let first = "12 for the first record where nothing is lost";
    made.with(0, |record| break_record(random, record)).gives(tally, first, refused(ENTRY))?;
    if made.count() > 1 {
        made.with_place(0, 1).gives(tally, "12 for the first two where nothing is lost", refused(ENTRY))?;
    }
    Ok(())
}
