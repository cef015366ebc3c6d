//! Compares the archive for hosts in C with this program, call by call, over inputs from a fixed seed: the result, the next
//! record field by field, and every element of lent memory, with what lies around it.

use crate::random::Random;
use crate::tally::Tally;
use crate::{compare_codec, compare_counts, compare_forms, compare_limits, compare_newest, compare_pieces, compare_profiles};
use crate::{compare_ranges, compare_receiver, compare_report, compare_sent, compare_totals, compare_tracker};

/// So many rounds read and write reports: each of them is also cut at every single place, which takes calls for each byte of it.
const WITH_REPORTS: usize = 120;

/// Each round takes a made-up record through all calls, goes on with a grown one, and reads and writes frames and a report.
/// Some rounds take a report through all its longer forms, some through the counts of entries at the limit, some through what
/// the profiles tell apart, some through the search for the newest lost object, some take the records of the tracker, of the
/// sending side and of the reader in pieces through their calls, and some a week's totals. Every report that is read is also
/// read in parts, cut at every single place. The first rounds write a window of each number of ranges.
pub fn run(count: usize) -> Result<(), String> {
    let mut random = Random::from_seed(2);
    let mut tally = Tally::default();
    for round in 0..count {
        compare_receiver::made_up(&mut random, &mut tally)?;
        compare_receiver::grown(&mut random, &mut tally)?;
        compare_codec::round(&mut random, &mut tally)?;
        compare_counts::round(&mut random, &mut tally)?;
        if round < WITH_REPORTS {
            reports(&mut random, &mut tally, round)?;
        }
        if (round as u64) < compare_ranges::MOST {
            compare_ranges::write(&mut random, &mut tally, round as u64 + 1)?;
        }
        if round % 4 == 0 {
            compare_tracker::made_up(&mut random, &mut tally)?;
            compare_tracker::grown(&mut random, &mut tally)?;
            compare_sent::made_up(&mut random, &mut tally)?;
            compare_sent::grown(&mut random, &mut tally)?;
            compare_totals::round(&mut random, &mut tally)?;
            compare_pieces::made_up(&mut random, &mut tally)?;
        }
        if (round + 1) % 1000 == 0 {
            println!("{} of {count} rounds agree", round + 1);
        }
    }
    tally.print();
    tally.judge()
}

/// The reports of a round.
fn reports(random: &mut Random, tally: &mut Tally, round: usize) -> Result<(), String> {
    compare_report::round(random, tally)?;
    if round % 20 == 0 {
        compare_forms::round(random, tally, round / 20)?;
    }
    if round % 10 == 0 {
        compare_profiles::round(random, tally)?;
        compare_newest::round(random, tally)?;
    }
    if round % 40 == 0 {
        compare_limits::round(random, tally)?;
    }
    if round % 100 == 0 {
        compare_limits::everywhere(random, tally)?;
    }
    Ok(())
}
