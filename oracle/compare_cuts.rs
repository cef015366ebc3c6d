//! Document 02, No. 6: a report cut in two at every single place.

use crate::archive::{lumbixet_pieces_end, lumbixet_pieces_take, raw_header};
use crate::archive::{Pieces as Raw, PiecesTaken, Report};
use crate::compare_pieces::judge;
use crate::compare_report::named;
use crate::made_up_pieces::raw_after;
use crate::pieces::{open, Pieces, Taken};
use crate::random::Random;
use crate::refusals::ACCEPTED;
use crate::tally::{leaves, Call, Lent, Tally};

/// How far a report has come.
struct Place {
    /// The words of the record.
    record: Raw,
    /// What a call that ends here answers: bytes taken and records are those since the first byte.
    answer: PiecesTaken,
}

/// The papers' reader before the first byte of a report and after each one, once through and byte by byte, up to the first that is
/// not taken, since a refusal stands; and the records that came.
fn course(reader: &mut Pieces, bytes: &[u8]) -> (Vec<Place>, Vec<u8>) {
    let opened = raw_after(&Raw { profile: reader.profile as u64 + 1, ..Raw::default() }, reader);
    let (mut buffer, mut came) = (vec![0; reader.profile.record()], Vec::new());
    let mut places: Vec<Place> = Vec::with_capacity(bytes.len() + 1);
    for end in 0..=bytes.len() {
        let Taken { result, bytes, records, header } = reader.take(&bytes[end.saturating_sub(1)..end], &mut buffer);
        came.extend_from_slice(&buffer[..records * reader.profile.record()]);
        let before = places.last().map_or((0, 0), |place| (place.answer.taken, place.answer.records));
        let answer = PiecesTaken {
            result,
            taken: before.0 + bytes as u64,
            records: before.1 + records as u64,
            whole: u64::from(header.is_some()),
            header: raw_header(&header.unwrap_or_default()),
        };
        places.push(Place { record: raw_after(&opened, reader), answer });
        if result != ACCEPTED && bytes == 0 {
            break;
        }
    }
    (places, came)
}

/// A report cut in two at every single place up to the first byte that is not taken, which a refusal leaves: what each call of the
/// archive answers, leaves in the record and in all memory of the buffer and around it, is what the papers' reader comes to byte by
/// byte.
pub fn compare_everywhere(random: &mut Random, tally: &mut Tally, profile: u64, bytes: &[u8]) -> Result<(), String> {
    let Ok(mut reader) = open(profile) else { return Ok(()) };
    let size = reader.profile.record();
    let (places, came) = course(&mut reader, bytes);
    let stood = reader.is_refused();
    let end = match reader.end() {
        Ok(header) => Report { result: ACCEPTED, header: raw_header(&header) },
        Err(result) => Report { result, ..Report::default() },
    };
    let last = places.len() - 1;
    let ended = if stood { places[last].record } else { raw_after(&places[last].record, &reader) };
    let lent = Lent::new(random, came.len() + size);
    let (mut wanted, mut memory) = (lent.clone(), lent.clone());
    let [take, close] = [["pieces_take 1", "pieces_take 2", "pieces_take else"], ["pieces_end 1", "pieces_end 2", "pieces_end else"]]
        .map(|names| named(profile, names));
    for place in (0..=last).chain(Some(bytes.len()).filter(|whole| *whole > last)) {
        let mut raw = places[0].record;
        for (from, to) in [(0, place), (place, bytes.len())] {
            let (before, after) = (&places[from.min(last)].answer, &places[to.min(last)].answer);
            let papers = PiecesTaken { taken: after.taken - before.taken, records: after.records - before.records, ..*after };
            let new = &came[before.records as usize * size..after.records as usize * size];
            wanted.memory.copy_from_slice(&lent.memory);
            wanted.buffer()[..new.len()].copy_from_slice(new);
            memory.memory.copy_from_slice(&lent.memory);
            let (part, start, room) = (&bytes[from..to], memory.buffer().as_mut_ptr(), lent.length);
            let (archive, next) =
                leaves(&raw, |lent| unsafe { lumbixet_pieces_take(lent, part.as_ptr(), part.len(), start, room) })?;
            let call = Call { name: take, result: papers.result, given: &(raw, part, room) };
            tally.compare(call, (papers, &wanted.memory, &places[to.min(last)].record), (archive, &memory.memory, &next))?;
            raw = next;
        }
        let archive = leaves(&raw, |lent| unsafe { lumbixet_pieces_end(lent) })?;
        tally.compare(Call { name: close, result: end.result, given: &raw }, (end, ended), archive)?;
    }
    judge(profile, bytes, &came, &end)?;
    tally.note("an accepted report with entries cut at every place", end.result == ACCEPTED && !came.is_empty());
    tally.note("a report of 1,000 bytes cut at every place", bytes.len() >= 1000);
    tally.note("a refused report cut at every place", end.result != ACCEPTED);
    Ok(())
}
