//! The sending side's calls: on made-up records, and on records grown from an opening, with frames whole, damaged and cut, and
//! lists of every room around the needed one.

use crate::archive::{lumbixet_losses_heard, lumbixet_losses_open, lumbixet_losses_send};
use crate::archive::{HeardAck, Losses as Raw, SentNumber};
use crate::frames::read_ack;
use crate::made_up_bytes::damaged;
use crate::made_up_sent::{frame_near, losses_of, raw, raw_of};
use crate::numbers::LARGEST;
use crate::random::Random;
use crate::refusals::{ACCEPTED, ENDS, NEVER_SENT, NO_ROOM, TOO_LARGE};
use crate::sent::{Heard, Losses, HELD};
use crate::tally::{leaves, Call, Tally};
use std::collections::BTreeSet;

/// All calls on one made-up record.
pub fn made_up(random: &mut Random, tally: &mut Tally) -> Result<(), String> {
    let given = raw(random);
    note_inconsistent(tally, &losses_of(&given));
    compare_open(tally, &given)?;
    compare_send(tally, &given)?;
    let frame = frame_near(random, &losses_of(&given));
    compare_heard(random, tally, &given, &frame)?;
    if random.chance(60) {
        damaged(random, &frame, |random, bytes| compare_heard(random, tally, &given, bytes).map(|_| ()))?;
    }
    if random.chance(150) {
        heard_at_every_room(random, tally, &given, &frame)?;
    }
    Ok(())
}

/// A record is opened, and each of many calls is given the record that the call before left.
pub fn grown(random: &mut Random, tally: &mut Tally) -> Result<(), String> {
    let mut given = sent_at_once(tally, &raw(random), random.one_of(&[0, 5, 100, HELD - 1, HELD]))?;
    let mut listed = Listed::default();
    for _ in 0..random.between(1, 20) {
        for _ in 0..random.one_of(&[0, 1, 3, 10]) {
            given = compare_send(tally, &given)?;
        }
        let frame = frame_near(random, &losses_of(&given));
        let (heard, next) = compare_heard(random, tally, &given, &frame)?;
        listed.judge(&heard)?;
        given = next;
    }
    listed.judge_totals(&given)
}

/// Many sends, of which the last record alone is compared.
fn sent_at_once(tally: &mut Tally, any: &Raw, count: u64) -> Result<Raw, String> {
    let mut given = compare_open(tally, any)?;
    for number in 0..count {
        let sent = unsafe { lumbixet_losses_send(&mut given) };
        if (sent.result, sent.number) != (ACCEPTED, number) {
            return Err(format!("send {number} of {count} after an opening: {sent:?}"));
        }
    }
    let wanted = raw_of(&Losses { next: count, ..Losses::default() });
    tally.compare(Call { name: "losses_send", result: ACCEPTED, given: &count }, wanted, given)?;
    Ok(given)
}

/// All that was listed since an opening: "each once", and none as lost that was acknowledged before.
#[derive(Default)]
struct Listed {
    acknowledged: BTreeSet<u64>,
    lost: BTreeSet<u64>,
}

impl Listed {
    fn judge(&mut self, heard: &Heard) -> Result<(), String> {
        let rises = |list: &[u64]| list.windows(2).all(|pair| pair[0] < pair[1]);
        let acknowledged_once = heard.acknowledged.iter().all(|number| self.acknowledged.insert(*number));
        let lost_once = heard.lost.iter().all(|number| self.lost.insert(*number));
        let none_after = heard.lost.iter().all(|number| !self.acknowledged.contains(number));
        if rises(&heard.acknowledged) && rises(&heard.lost) && acknowledged_once && lost_once && none_after {
            return Ok(());
        }
        Err(format!("listed twice, falling, or lost after it was acknowledged: {heard:?}"))
    }

    /// "Outstanding, acknowledged and lost add up to the number sent."
    fn judge_totals(&self, last: &Raw) -> Result<(), String> {
        let counts = losses_of(last).counts();
        let still_lost = self.lost.difference(&self.acknowledged).count() as u64;
        let outstanding = last.next - self.acknowledged.len() as u64 - still_lost;
        if counts != [outstanding, self.acknowledged.len() as u64, still_lost] {
            return Err(format!("of {} sent {counts:?} are outstanding, acknowledged and lost", last.next));
        }
        Ok(())
    }
}

fn note_inconsistent(tally: &mut Tally, losses: &Losses) {
    if let [fault] = losses.faults()[..] {
        tally.note(fault, true);
    }
}

fn compare_open(tally: &mut Tally, given: &Raw) -> Result<Raw, String> {
    let ((), opened) = leaves(given, |lent| unsafe { lumbixet_losses_open(lent) })?;
    let papers = raw_of(&Losses::default());
    tally.compare(Call { name: "losses_open", result: ACCEPTED, given }, papers, opened)?;
    Ok(opened)
}

fn compare_send(tally: &mut Tally, given: &Raw) -> Result<Raw, String> {
    let before = losses_of(given);
    let mut after = before.clone();
    let papers = match after.send() {
        Ok(number) => (SentNumber { result: ACCEPTED, number }, raw_of(&after)),
        Err(result) => (SentNumber { result, number: 0 }, *given),
    };
    let archive = leaves(given, |lent| unsafe { lumbixet_losses_send(lent) })?;
    tally.compare(Call { name: "losses_send", result: papers.0.result, given }, papers, archive)?;
    note_send(tally, &before, &papers.0);
    Ok(archive.1)
}

fn note_send(tally: &mut Tally, before: &Losses, sent: &SentNumber) {
    let (oldest, full) = (before.oldest(), before.next >= HELD);
    let accepted = sent.result == ACCEPTED;
    tally.note("9 for the 1,025th send while the oldest is outstanding", sent.result == NO_ROOM && before.next == HELD);
    tally.note("a send in the room of an acknowledged number", accepted && full && before.acknowledged.contains(&oldest));
    tally.note("a send in the room of a lost number", accepted && full && before.lost.contains(&oldest));
    tally.note("the 1,025th send", accepted && before.next == HELD);
    tally.note("number 2^62 - 1 sent", accepted && sent.number == LARGEST);
    let waiting = before.outstanding(oldest);
    tally.note("5 after number 2^62 - 1, where the oldest is outstanding", sent.result == TOO_LARGE && waiting);
    tally.note("5 after number 2^62 - 1, where there would be room", sent.result == TOO_LARGE && !waiting);
}

/// In lists with room for all, for one less, for more, for none, or of any room.
fn compare_heard(random: &mut Random, tally: &mut Tally, given: &Raw, frame: &[u8]) -> Result<(Heard, Raw), String> {
    let (acknowledged, lost) = needed(given, frame);
    let mut room = |needed: usize| {
        let any = random.below(40) as usize;
        random.one_of(&[needed, needed, needed, needed, needed, needed + 1, needed + 5, needed.saturating_sub(1), any])
    };
    let rooms = (room(acknowledged), room(lost));
    heard_in(random, tally, given, frame, rooms)
}

/// How many numbers each list takes; none where the frame is refused.
fn needed(given: &Raw, frame: &[u8]) -> (usize, usize) {
    let heard = losses_of(given).heard(frame, &mut [0; HELD as usize], &mut [0; HELD as usize]);
    heard.map_or((0, 0), |heard| (heard.acknowledged.len(), heard.lost.len()))
}

fn heard_at_every_room(random: &mut Random, tally: &mut Tally, given: &Raw, frame: &[u8]) -> Result<(), String> {
    let (acknowledged, lost) = needed(given, frame);
    let around = |needed: usize| [0, 1, needed.saturating_sub(2), needed.saturating_sub(1), needed, needed + 1, needed + 2];
    for first in around(acknowledged) {
        for second in around(lost) {
            heard_in(random, tally, given, frame, (first, second))?;
        }
    }
    tally.note("every room around the needed one, of both lists", acknowledged > 2 && lost > 2);
    Ok(())
}

/// Memory for a list with two numbers on each side.
fn list(random: &mut Random, room: usize) -> Vec<u64> {
    (0..room + 4).map(|_| random.any()).collect()
}

fn heard_in(
    random: &mut Random,
    tally: &mut Tally,
    given: &Raw,
    frame: &[u8],
    rooms: (usize, usize),
) -> Result<(Heard, Raw), String> {
    let before = losses_of(given);
    let mut after = before.clone();
    let mut papers_lists = (list(random, rooms.0), list(random, rooms.1));
    let mut lists = papers_lists.clone();
    let heard = after.heard(frame, &mut papers_lists.0[2..2 + rooms.0], &mut papers_lists.1[2..2 + rooms.1]);
    let papers = match &heard {
        Ok(heard) => (answer_of(heard), raw_of(&after)),
        Err(result) => (HeardAck { result: *result, ..HeardAck::default() }, *given),
    };
    let (first, second) = (lists.0[2..].as_mut_ptr(), lists.1[2..].as_mut_ptr());
    let archive = leaves(given, |lent| unsafe {
        lumbixet_losses_heard(lent, frame.as_ptr(), frame.len(), first, rooms.0, second, rooms.1)
    })?;
    let call = Call { name: "losses_heard", result: papers.0.result, given: &(given, frame, rooms) };
    tally.compare(call, (papers, papers_lists), (archive, lists))?;
    note_refusal(tally, &before, frame, papers.0.result, rooms);
    let heard = heard.unwrap_or_default();
    if papers.0.result == ACCEPTED {
        note_heard(tally, &before, &after, &heard, frame);
        tally.note(
            "both lists filled to their last place",
            rooms == (heard.acknowledged.len(), heard.lost.len()) && rooms.0.min(rooms.1) > 0,
        );
    }
    Ok((heard, archive.1))
}

fn answer_of(heard: &Heard) -> HeardAck {
    HeardAck {
        result: ACCEPTED,
        length: heard.used as u64,
        acknowledged: heard.acknowledged.len() as u64,
        lost: heard.lost.len() as u64,
    }
}

fn note_refusal(tally: &mut Tally, before: &Losses, frame: &[u8], result: u64, rooms: (usize, usize)) {
    tally.note("16 where the lists have no room", result == NEVER_SENT && rooms == (0, 0));
    tally.note("16 before anything was sent", result == NEVER_SENT && before.next == 0);
    if result == NO_ROOM {
        let mut other = before.clone();
        let mut all = [0; HELD as usize];
        let heard = other.heard(frame, &mut all.clone(), &mut all).unwrap_or_default();
        let short = (rooms.0 < heard.acknowledged.len(), rooms.1 < heard.lost.len());
        tally.note("9 for the list of the acknowledged alone", short == (true, false));
        tally.note("9 for the list of the lost alone", short == (false, true));
        tally.note("9 for both lists", short == (true, true));
    }
    // a frame that is cut by its last byte only
    let mut whole = frame.to_vec();
    whole.push(0);
    let never_sent = read_ack(&whole).map_or(false, |ack| ack.largest >= before.next);
    tally.note("2 where 16 would be next", result == ENDS && never_sent);
}

/// What an accepted frame came to.
fn note_heard(tally: &mut Tally, before: &Losses, after: &Losses, heard: &Heard, frame: &[u8]) {
    let Ok(ack) = read_ack(frame) else { return };
    let (oldest, largest) = (before.oldest(), after.largest.unwrap_or(0));
    let names = |number: u64| ack.ranges.iter().any(|(smallest, largest)| (*smallest..=*largest).contains(&number));
    let lowest = ack.ranges.iter().map(|(smallest, _)| *smallest).min().unwrap_or(0);
    let late = heard.acknowledged.iter().any(|number| before.lost.contains(number));
    tally.note("a lost number acknowledged later, and listed", late);
    tally.note("a number acknowledged again, and not listed", before.acknowledged.iter().any(|number| names(*number)));
    tally.note("a number lost by exactly 3", largest >= 3 && heard.lost.contains(&(largest - 3)));
    let near = largest >= 2 && (oldest..before.next).contains(&(largest - 2)) && after.outstanding(largest - 2);
    tally.note("a number 2 below the largest that stays outstanding", near);
    tally.note(
        "a range over forgotten numbers alone, and nothing changed",
        ack.largest < oldest && before.acknowledged == after.acknowledged,
    );
    let across = ack.ranges.iter().any(|(smallest, largest)| *smallest < oldest && *largest >= oldest);
    tally.note("a range that reaches below the oldest held number", across);
    tally.note("ranges held and ranges forgotten in one frame", lowest < oldest && ack.largest >= oldest && ack.ranges.len() > 1);
    tally.note("a frame below the largest of an earlier one", before.largest.map_or(false, |earlier| ack.largest < earlier));
    tally.note("a frame of type 03 heard", ack.counts.is_some());
    tally.note("a frame that lists nothing", heard.acknowledged.is_empty() && heard.lost.is_empty());
    tally.note("all of 1,024 numbers listed", heard.acknowledged.len() as u64 == HELD);
}
