//! Document 02, No. 6: every report of the other comparisons cut into parts, empty ones too, through buffers of one record and more;
//! and made-up records.

use crate::archive::{lumbixet_pieces_end, lumbixet_pieces_open, lumbixet_pieces_take, raw_header};
use crate::archive::{Pieces as Raw, PiecesTaken, Report};
use crate::compare_cuts::compare_everywhere;
use crate::compare_report::named;
use crate::made_up_pieces::{break_clause, consistent, other_word, pieces_of, raw_after, CLAUSES};
use crate::made_up_report::{profile_of, report};
use crate::numbers::LARGEST;
use crate::pieces::{open, Awaited, Pieces, Taken};
use crate::profile::{judge_records, Profile};
use crate::random::Random;
use crate::refusals::{ACCEPTED, BYTES_BEHIND, ENDS, ENTRY, INCONSISTENT, NO_ROOM};
use crate::report::{read_header, read_report, MOST_ENTRIES};
use crate::tally::{leaves, Call, Lent, Tally};

/// A report as far as it has come: the papers' reader, none for a record that is not consistent, and the archive's record.
#[derive(Clone)]
struct Both {
    papers: Option<Pieces>,
    raw: Raw,
    /// The records that were delivered so far.
    came: Vec<u8>,
}

impl Both {
    /// A record, made up or not, as it is handed in.
    fn from_record(raw: Raw) -> Both {
        Both { papers: pieces_of(&raw), raw, came: Vec::new() }
    }

    /// Opens both; what stood in the archive's record before is not looked at, and stays on 18.
    fn open(random: &mut Random, tally: &mut Tally, profile: u64) -> Result<Option<Both>, String> {
        let (word, numbers) = (random.any(), [(); 25].map(|()| random.any()));
        let given =
            Raw { profile: random.below(4), stage: random.below(6), left: word, come: word % 30, numbers, ..Raw::default() };
        let papers = open(profile);
        let result = papers.as_ref().err().copied().unwrap_or(ACCEPTED);
        let next = papers.as_ref().map_or(given, |papers| raw_after(&Raw { profile, ..Raw::default() }, papers));
        let archive = leaves(&given, |lent| unsafe { lumbixet_pieces_open(lent, profile) })?;
        let name = named(profile, ["pieces_open 1", "pieces_open 2", "pieces_open else"]);
        tally.compare(Call { name, result, given: &profile }, (result, next), archive)?;
        Ok(papers.ok().map(|papers| Both { papers: Some(papers), raw: archive.1, came: Vec::new() }))
    }

    /// One call of take on each: the answer, the record, and all memory of the buffer and around it.
    fn take(&mut self, random: &mut Random, tally: &mut Tally, part: &[u8], room: usize) -> Result<PiecesTaken, String> {
        let mut papers_lent = Lent::new(random, room);
        let mut archive_lent = papers_lent.clone();
        let given = (self.raw, self.papers.clone());
        let stood = given.1.as_ref().map_or(false, Pieces::is_refused);
        let taken = self.papers.as_mut().map_or(Taken::refused(INCONSISTENT), |papers| papers.take(part, papers_lent.buffer()));
        let papers = PiecesTaken {
            result: taken.result,
            taken: taken.bytes as u64,
            records: taken.records as u64,
            whole: u64::from(taken.header.is_some()),
            header: raw_header(&taken.header.unwrap_or_default()),
        };
        // "A refusal returns its number and the record as it came in"; a fault of the report's own is kept for later calls
        let unchanged = stood || [INCONSISTENT, NO_ROOM].contains(&taken.result);
        let start = archive_lent.buffer().as_mut_ptr();
        let (archive, next) =
            leaves(&self.raw, |lent| unsafe { lumbixet_pieces_take(lent, part.as_ptr(), part.len(), start, room) })?;
        let name = named(self.raw.profile, ["pieces_take 1", "pieces_take 2", "pieces_take else"]);
        let call = Call { name, result: taken.result, given: &(&given, part, room) };
        let wanted = self.papers.as_ref().filter(|_| !unchanged).map_or(self.raw, |papers| raw_after(&self.raw, papers));
        tally.compare(call, (papers, &papers_lent.memory, wanted), (archive, &archive_lent.memory, next))?;
        self.raw = next;
        if let (Some(before), Some(after)) = (&given.1, &self.papers) {
            note_take(tally, before, after, part, room, &taken);
            self.came.extend_from_slice(&papers_lent.buffer()[..taken.records * after.profile.record()]);
        }
        Ok(papers)
    }

    /// One call of end on each.
    fn end(&mut self, tally: &mut Tally) -> Result<Report, String> {
        let before = self.papers.clone();
        let papers = match self.papers.as_mut().map_or(Err(INCONSISTENT), Pieces::end) {
            Ok(header) => Report { result: ACCEPTED, header: raw_header(&header) },
            Err(result) => Report { result, ..Report::default() },
        };
        let stood = before.as_ref().map_or(false, Pieces::is_refused);
        let wanted = self.papers.as_ref().filter(|_| !stood).map_or(self.raw, |papers| raw_after(&self.raw, papers));
        let archive = leaves(&self.raw, |lent| unsafe { lumbixet_pieces_end(lent) })?;
        let name = named(self.raw.profile, ["pieces_end 1", "pieces_end 2", "pieces_end else"]);
        tally.compare(Call { name, result: papers.result, given: &self.raw }, (papers, wanted), archive)?;
        self.raw = archive.1;
        before.iter().for_each(|before| note_end(tally, before, papers.result));
        Ok(papers)
    }

    /// Hands in a part until all of it was taken, or until a refusal stands, which is told.
    fn feed(&mut self, random: &mut Random, tally: &mut Tally, part: &[u8], room: usize) -> Result<bool, String> {
        let mut rest = part;
        loop {
            let taken = self.take(random, tally, rest, room)?;
            rest = &rest[taken.taken as usize..];
            if rest.is_empty() || taken.result != ACCEPTED {
                return Ok(taken.result != ACCEPTED);
            }
            if taken.taken == 0 {
                return Err(format!("no byte is taken of {rest:?} in room {room}: {:?}", self.raw));
            }
        }
    }
}

fn note_take(tally: &mut Tally, before: &Pieces, after: &Pieces, part: &[u8], room: usize, taken: &Taken) {
    let size = before.profile.record();
    let number = !matches!(after.awaited, Awaited::Record(_) | Awaited::Counted(_) | Awaited::Behind);
    let (cut, accepted) = (!after.carried.is_empty() && !part.is_empty(), taken.result == ACCEPTED);
    tally.note("a part that ends inside a number", cut && number && accepted);
    tally.note("a part that ends inside an entry", cut && !number && accepted);
    tally.note("an empty part", part.is_empty() && accepted);
    let full = taken.records > 0 && room - taken.records * size < size;
    tally.note("a full buffer, and a rest that is not taken", full && accepted && taken.bytes < part.len());
    tally.note("13 though the buffer is full", full && taken.result == BYTES_BEHIND);
    let counting = matches!(after.awaited, Awaited::Counted(_)) && !matches!(before.awaited, Awaited::Counted(_));
    tally.note("a bad entry, and no refusal yet", counting && accepted);
    tally.note("12 with the last of all entry bytes", taken.result == ENTRY && taken.bytes > 0);
    tally.note("12 where a byte too many follows", taken.result == ENTRY && taken.bytes > 0 && taken.bytes < part.len());
    tally.note("entries delivered by the call that refuses", taken.records > 0 && !accepted);
    let stood = before.is_refused();
    tally.note("9 before a refusal that stands", stood && taken.result == NO_ROOM);
    tally.note("a refusal again", stood && taken.result != NO_ROOM && !part.is_empty());
    tally.note("nothing taken after an accepted end", before.settled == Some(ACCEPTED) && accepted && !part.is_empty());
}

fn note_end(tally: &mut Tally, before: &Pieces, result: u64) {
    let came_first = before.settled.is_none() && result == ENDS;
    let cut = !before.carried.is_empty();
    let record = matches!(before.awaited, Awaited::Record(_));
    let counting = matches!(before.awaited, Awaited::Counted(_));
    tally.note("2 for an end inside a number", came_first && cut && !record);
    tally.note("2 for an end between two numbers", came_first && !cut && !record && !counting);
    tally.note("2 for an end inside an entry", came_first && cut && record);
    tally.note("2 for an end before an entry", came_first && !cut && record);
    tally.note("2 for an end behind a bad entry", came_first && counting);
    tally.note("the answer of the end again", before.settled == Some(result));
}

/// Room for one record, or for some, not always a whole number of them.
fn any_room(random: &mut Random, profile: Profile) -> usize {
    let size = profile.record() as u64;
    let more = random.below(8 * size);
    let most = if random.chance(30) { 200 * size } else { 8 * size };
    random.one_of(&[size, size, size + 1, 2 * size - 1, 2 * size, size + more, most]) as usize
}

/// The records that "are delivered and stay": all of an accepted report, and of a refused one "exactly the good records before the
/// first bad or missing one". They stand behind the numbers of the report, wherever it ends.
fn to_be_delivered(profile: Profile, bytes: &[u8]) -> &[u8] {
    // with zeros behind it no report is too short for its entries
    let longer = [bytes, &[0; 24 * MOST_ENTRIES as usize + 16]].concat();
    let Ok((_, records)) = read_header(MOST_ENTRIES, profile, &longer) else { return &[] };
    let there = bytes.get(records.start..).unwrap_or(&[]);
    let there = &there[..there.len().min(records.len())];
    let size = profile.record();
    // one record more is good if it is so behind the one before it
    let one_more = |good: &usize| judge_records(profile, &there[size * good.saturating_sub(1)..size * (good + 1)]).is_ok();
    let good = (0..there.len() / size).take_while(one_more).count();
    &there[..size * good]
}

/// Header, entries and refusal number are the whole reader's.
pub fn judge(profile: u64, bytes: &[u8], came: &[u8], end: &Report) -> Result<(), String> {
    let whole = match read_report(profile, bytes) {
        Ok((header, _)) => Report { result: ACCEPTED, header: raw_header(&header) },
        Err(result) => Report { result, ..Report::default() },
    };
    let records = to_be_delivered(profile_of(profile), bytes);
    if *end != whole || came != records {
        return Err(format!("in parts {end:?} and {came:?}, whole {whole:?} and {records:?}: profile {profile}, {bytes:?}"));
    }
    Ok(())
}

/// A report in these parts, each with a room of its own; then the end, and calls behind it.
fn compare_parts<'a>(
    random: &mut Random,
    tally: &mut Tally,
    profile: u64,
    bytes: &[u8],
    parts: impl Iterator<Item = &'a [u8]>,
) -> Result<(), String> {
    let Some(mut both) = Both::open(random, tally, profile)? else { return Ok(()) };
    for part in parts {
        let room = any_room(random, profile_of(profile));
        if random.chance(20) {
            let short = random.below(profile_of(profile).record() as u64) as usize;
            both.take(random, tally, part, short)?;
        }
        if both.feed(random, tally, part, room)? {
            break;
        }
    }
    let end = both.end(tally)?;
    judge(profile, bytes, &both.came, &end)?;
    tally.note("the good entries of a refused report stay", end.result != ACCEPTED && !both.came.is_empty());
    let room = any_room(random, profile_of(profile));
    both.take(random, tally, bytes, room)?;
    both.end(tally).map(|_| ())
}

/// Some parts, empty ones among them; of a long report now and then many.
fn any_parts<'a>(random: &mut Random, bytes: &'a [u8]) -> Vec<&'a [u8]> {
    let (mut parts, mut rest) = (Vec::new(), bytes);
    let length = bytes.len() as u64;
    let about = if random.chance(30) { random.between(2, 40) } else { 2 + random.one_of(&[length / 8, length / 2, length]) };
    while !rest.is_empty() {
        let (part, behind) = rest.split_at((random.below(about) as usize).min(rest.len()));
        parts.push(part);
        rest = behind;
    }
    parts
}

/// Every report of the other comparisons comes here: cut at random places and at every single place, and some byte by byte.
pub fn compare_cut(random: &mut Random, tally: &mut Tally, profile: u64, bytes: &[u8]) -> Result<(), String> {
    let parts = any_parts(random, bytes);
    compare_parts(random, tally, profile, bytes, parts.into_iter())?;
    if random.below(20 + bytes.len() as u64) < 2 {
        compare_parts(random, tally, profile, bytes, bytes.chunks(1))?;
    }
    compare_everywhere(random, tally, profile, bytes)
}

/// A made-up record: each clause of consistency broken by itself, words near their edges, any words at all; each then with a part
/// and the end.
pub fn made_up(random: &mut Random, tally: &mut Tally) -> Result<(), String> {
    let mut raw = consistent(random);
    calls(random, tally, raw)?;
    for (clause, moment) in CLAUSES.iter().enumerate() {
        let mut broken = raw;
        if break_clause(random, &mut broken, clause) {
            tally.note(moment, true);
            calls(random, tally, broken)?;
        }
    }
    other_word(random, &mut raw);
    calls(random, tally, raw)?;
    let mut words = Raw { profile: random.between(1, 2), stage: random.below(5), ..Raw::default() };
    (words.left, words.come, words.carried) = (random.below(20), random.below(26), random.below(25));
    words.numbers.iter_mut().for_each(|number| *number = random.any() >> random.between(1, 63));
    words.bytes.iter_mut().for_each(|byte| *byte = random.any());
    (words.group, words.above) = (random.below(LARGEST), random.below(LARGEST));
    calls(random, tally, words)
}

/// Some parts of a report, in order or not, for a record that knows nothing of it; and the end before, between or behind them.
fn calls(random: &mut Random, tally: &mut Tally, raw: Raw) -> Result<(), String> {
    let profile = Profile::of(raw.profile).unwrap_or(Profile::One);
    let bytes = report(random, profile);
    let mut both = Both::from_record(raw);
    let early = both.clone().end(tally)?.result;
    let without_room = both.take(random, tally, &bytes, 0)?.result;
    tally.note("1 before 9", without_room == INCONSISTENT && early == INCONSISTENT);
    for _ in 0..random.between(1, 3) {
        let from = random.below(bytes.len() as u64 + 1) as usize;
        let length = random.below(60).min((bytes.len() - from) as u64) as usize;
        let room = any_room(random, profile);
        both.take(random, tally, &bytes[from..from + length], room)?;
        let short = random.below(16) as usize;
        both.take(random, tally, &bytes[from..], short)?;
    }
    both.end(tally)?;
    both.take(random, tally, &bytes, 48).map(|_| ())
}
