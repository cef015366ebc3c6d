//! Windows of 1 to 512 ranges, which is as many as a window can have, written at every room: where one range more fits, where
//! the range count takes a second byte, and where it does not fit beside the 65th range.

use crate::archive::raw_of;
use crate::compare_counts::write_at_every_room;
use crate::made_up::consistent;
use crate::numbers::LARGEST;
use crate::random::Random;
use crate::record::{Record, WINDOW};
use crate::tally::Tally;
use std::collections::BTreeSet;

/// As many ranges as a window can have.
pub const MOST: u64 = WINDOW / 2;

pub fn write(random: &mut Random, tally: &mut Tally, ranges: u64) -> Result<(), String> {
    let record = window_of(random, ranges);
    if !record.consistent() || record.ranges().len() as u64 != ranges {
        return Err(format!("a window of {ranges} ranges was made up wrong: {record:?}"));
    }
    write_at_every_room(random, tally, &raw_of(&record))?;
    tally.note("a window of 64 ranges at every room", ranges == 64);
    tally.note("a window of 65 ranges at every room", ranges == 65);
    tally.note("a window of 512 ranges at every room", ranges == MOST);
    Ok(())
}

/// So many parts of the window, the last one up to L, each with some numbers missing at its start.
fn window_of(random: &mut Random, ranges: u64) -> Record {
    let part = WINDOW / ranges;
    let missing: Vec<u64> = (0..ranges).map(|_| random.between(1, part - 1)).collect();
    let first = random.below(LARGEST - WINDOW);
    let received: BTreeSet<u64> = (0..WINDOW)
        .filter(|place| {
            let of = (place / part).min(ranges - 1);
            place - of * part >= missing[of as usize]
        })
        .map(|place| first + place)
        .collect();
    Record {
        largest: Some(first + WINDOW - 1),
        received,
        confirmed: 0,
        acknowledged: None,
        highest: None,
        pending_largest: None,
        pending: 0,
        ..consistent(random)
    }
}
