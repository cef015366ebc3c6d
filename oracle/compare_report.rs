//! The feedback report of each profile: written from made-up headers and records, read whole, damaged and cut.

use crate::archive::*;
use crate::compare_newest::compare_newest;
use crate::compare_pieces::compare_cut;
use crate::made_up::argument;
use crate::made_up_bytes::damaged;
use crate::made_up_report::{break_header, break_records, header, profile, profile_of, records, report};
use crate::random::Random;
use crate::refusals::ACCEPTED;
use crate::report::{find_entries, read_entry, read_report, write_report, Header, MOST_ENTRIES};
use crate::tally::{Call, Lent, Tally};

pub fn round(random: &mut Random, tally: &mut Tally) -> Result<(), String> {
    let number = profile(random);
    let written = compare_write_report(random, tally, number)?;
    compare_readers(random, tally, number, &written)?;
    // what one profile holds, read as the other
    compare_readers(random, tally, 3 - number, &written)?;
    let report = report(random, profile_of(number));
    compare_readers(random, tally, number, &report)?;
    let other = another(random);
    compare_readers(random, tally, other, &report)?;
    damaged(random, &report, |random, bytes| compare_readers(random, tally, number, bytes))
}

/// A profile other than 1 or 2.
pub fn another(random: &mut Random) -> u64 {
    let any = argument(random);
    random.one_of(&[0, 3, 1 << 32 | 1, u64::MAX, any.max(3)])
}

/// The name under which a call is counted: each profile for itself, and all others together.
pub fn named(profile: u64, names: [&'static str; 3]) -> &'static str {
    match profile {
        1 => names[0],
        2 => names[1],
        _ => names[2],
    }
}

/// Compares the writer on what is made up; gives the report that was written.
fn compare_write_report(random: &mut Random, tally: &mut Tally, number: u64) -> Result<Vec<u8>, String> {
    let profile = profile_of(number);
    let mut header = header(random, profile);
    let count = random.one_of(&[0, 1, 2, 3, 50, 51, 63, 64, 65, 199, 200, 201, 255, 256, 257]);
    let mut records = records(random, profile, count);
    while random.chance(300) {
        break_header(random, profile, &mut header);
    }
    if random.chance(200) {
        break_records(random, profile, &mut records);
    }
    let lengths = [random.below(30), random.between(20, 120), random.below(1200), random.below(5000), 5000];
    let length = random.one_of(&lengths) as usize;
    let maximum = if random.chance(900) { random.one_of(&[0, 1, 50, 63, 64, 199, 200]) } else { maximum(random) };
    let other = another(random);
    compare_written(random, tally, other, (&header, &records), length, maximum)?;
    Ok(compare_written(random, tally, number, (&header, &records), length, maximum)?.1)
}

/// Any maximum, those around the limit among them.
fn maximum(random: &mut Random) -> u64 {
    let any = argument(random);
    random.one_of(&[200, 201, 201, 256, u64::MAX, any])
}

/// One call of the writer: its answer, and the bytes of the buffer that the report takes.
pub fn compare_written(
    random: &mut Random,
    tally: &mut Tally,
    profile: u64,
    (header, records): (&Header, &[u8]),
    length: usize,
    maximum: u64,
) -> Result<(Written, Vec<u8>), String> {
    let mut papers_lent = Lent::new(random, length);
    let mut archive_lent = Lent { memory: papers_lent.memory.clone(), length };
    let papers = match write_report(profile, papers_lent.buffer(), header, records, maximum) {
        Ok((next, kept)) => Written { result: 0, next: next as u64, kept: kept as u64 },
        Err(result) => Written { result, ..Written::default() },
    };
    let (start, raw) = (archive_lent.buffer().as_mut_ptr(), raw_header(header));
    let archive = unsafe { lumbixet_write_report(profile, start, length, raw, records.as_ptr(), records.len(), maximum) };
    let written = papers_lent.buffer()[..papers.next as usize].to_vec();
    let name = named(profile, ["write_report 1", "write_report 2", "write_report else"]);
    let call = Call { name, result: papers.result, given: &(profile, length, header, records, maximum) };
    tally.compare(call, (papers, papers_lent.memory), (archive, archive_lent.memory))?;
    Ok((papers, written))
}

pub fn compare_readers(random: &mut Random, tally: &mut Tally, profile: u64, bytes: &[u8]) -> Result<(), String> {
    let papers = match read_report(profile, bytes) {
        Ok((header, _)) => Report { result: 0, header: raw_header(&header) },
        Err(result) => Report { result, ..Report::default() },
    };
    let archive = unsafe { lumbixet_read_report(profile, bytes.as_ptr(), bytes.len()) };
    let name = named(profile, ["read_report 1", "read_report 2", "read_report else"]);
    tally.compare(Call { name, result: papers.result, given: &(profile, bytes) }, papers, archive)?;
    if papers.result == ACCEPTED {
        compare_written_again(tally, profile, bytes, &papers.header)?;
    }
    compare_newest(tally, profile, bytes)?;
    compare_cut(random, tally, profile, bytes)?;
    let (start, length) = find_entries(profile, bytes);
    let archive = unsafe { lumbixet_find_entries(profile, bytes.as_ptr(), bytes.len()) };
    let papers = Entries { start: start as u64, length: length as u64 };
    tally.compare(Call { name: "find_entries", result: 0, given: &(profile, bytes) }, papers, archive)?;
    compare_read_entry(random, tally, profile, &bytes[start..])?;
    // also of bytes that no report vouches for
    let anywhere = random.below(bytes.len() as u64 + 1) as usize;
    compare_read_entry(random, tally, profile, &bytes[anywhere..])
}

/// "From then on equal reports have equal bytes" (document 02, No. 5): an accepted report is what the writer makes of its header
/// and its entries, in a room that has not a byte more.
fn compare_written_again(tally: &mut Tally, profile: u64, bytes: &[u8], header: &crate::archive::Header) -> Result<(), String> {
    let (start, length) = find_entries(profile, bytes);
    let mut again = vec![0; bytes.len()];
    let entries = &bytes[start..start + length];
    let (buffer, room, most) = (again.as_mut_ptr(), bytes.len(), MOST_ENTRIES);
    let written = unsafe { lumbixet_write_report(profile, buffer, room, *header, entries.as_ptr(), entries.len(), most) };
    let papers = read_report(profile, bytes)
        .and_then(|(header, _)| write_report(profile, &mut vec![0; bytes.len()], &header, entries, most));
    let whole = (bytes.len(), length / profile_of(profile).record());
    let name = named(profile, ["write_report 1", "write_report 2", "write_report else"]);
    let wanted = Written { result: ACCEPTED, next: whole.0 as u64, kept: whole.1 as u64 };
    tally.compare(Call { name, result: ACCEPTED, given: &(profile, header, entries) }, (wanted, bytes), (written, &again[..]))?;
    if papers != Ok(whole) {
        return Err(format!("by the papers an accepted report is not written again: {papers:?}\n  read {bytes:?}"));
    }
    Ok(())
}

fn compare_read_entry(random: &mut Random, tally: &mut Tally, profile: u64, entries: &[u8]) -> Result<(), String> {
    let size = if profile == 2 { 24 } else { 16 };
    let last = entries.len() as u64 / size;
    let inside = random.below(last + 1);
    let index = random.one_of(&[0, inside, inside, last, u64::MAX, u64::MAX / size, u64::MAX / size + 1]) as usize;
    let papers = match read_entry(profile, entries, index) {
        Ok(entry) => EntryFound { result: 0, group: entry.group, object: entry.object, status: entry.status, age: entry.age },
        Err(result) => EntryFound { result, ..EntryFound::default() },
    };
    let archive = unsafe { lumbixet_read_entry(profile, entries.as_ptr(), entries.len(), index) };
    let name = named(profile, ["read_entry 1", "read_entry 2", "read_entry else"]);
    tally.compare(Call { name, result: papers.result, given: &(profile, entries, index) }, papers, archive)
}
