//! Examples of the sending side's loss list (document 02, No. 9): each sentence of the request.

use crate::example_lines::{hex, Examples};
use crate::frames::ack_that_fits;
use crate::numbers::LARGEST;
use crate::refusals::{BELOW_ZERO, ENDS, INCONSISTENT, NEVER_SENT, NO_ROOM, OTHER_TYPE, TOO_LARGE};
use crate::sent::{Losses, HELD};

pub fn check(examples: &mut Examples) {
    states(examples);
    late_acknowledgments(examples);
    largest_of_all_frames(examples);
    sums(examples);
    full_lists(examples);
    forgotten(examples);
    last_numbers(examples);
    refusals(examples);
    rooms(examples);
    records(examples);
}

/// So many numbers were sent, from 0 on.
fn sent(count: u64) -> Losses {
    let mut losses = Losses::default();
    (0..count).for_each(|number| assert_eq!(losses.send(), Ok(number)));
    losses
}

/// The frame of ranges, newest first.
fn frame(ranges: &[(u64, u64)]) -> Vec<u8> {
    ack_that_fits(0, ranges, None, usize::MAX).expect("room for every range")
}

/// What a frame lists, newly acknowledged and newly lost, in lists that hold everything.
fn hears(losses: &mut Losses, ranges: &[(u64, u64)]) -> Result<(Vec<u64>, Vec<u64>), u64> {
    let heard = losses.heard(&frame(ranges), &mut [0; HELD as usize], &mut [0; HELD as usize])?;
    Ok((heard.acknowledged, heard.lost))
}

fn states(examples: &mut Examples) {
    let mut losses = sent(10);
    examples.check("sent: ten numbers, all outstanding", losses.counts(), [10, 0, 0]);
    let wanted = Ok((vec![0, 1, 5], vec![2]));
    examples.check("sent: 5 is acknowledged, so 2 is lost, and 3 and 4 are not", hears(&mut losses, &[(5, 5), (0, 1)]), wanted);
    examples.check("  six are outstanding", losses.counts(), [6, 3, 1]);
    examples.check("sent: the same frame again lists nothing", hears(&mut losses, &[(5, 5), (0, 1)]), Ok((vec![], vec![])));
    examples.check("sent: 6 makes 3 lost", hears(&mut losses, &[(6, 6)]), Ok((vec![6], vec![3])));
    examples.check("sent: one range for both lists", hears(&mut losses, &[(9, 9)]), Ok((vec![9], vec![4])));
    examples.check("sent: 7 and 8 stay outstanding", (losses.outstanding(7), losses.outstanding(8)), (true, true));
    let mut losses = sent(4);
    examples.check("sent: at n + 2 nothing is lost", hears(&mut losses, &[(2, 2)]), Ok((vec![2], vec![])));
    examples.check("sent: at n + 3 it is", hears(&mut losses, &[(3, 3)]), Ok((vec![3], vec![0])));
    let mut losses = sent(4);
    examples.check(
        "sent: a number that the frame acknowledges is not lost",
        hears(&mut losses, &[(0, 3)]),
        Ok((vec![0, 1, 2, 3], vec![])),
    );
}

fn late_acknowledgments(examples: &mut Examples) {
    let mut losses = sent(10);
    let first = hears(&mut losses, &[(9, 9)]);
    examples.check("sent: seven are lost at once, rising", first, Ok((vec![9], vec![0, 1, 2, 3, 4, 5, 6])));
    let late = hears(&mut losses, &[(9, 9), (4, 5)]);
    examples.check("sent: lost numbers acknowledged later are listed as acknowledged", late, Ok((vec![4, 5], vec![])));
    examples.check("  and counted so", losses.counts(), [2, 3, 5]);
    examples.check("  once", hears(&mut losses, &[(9, 9), (4, 5)]), Ok((vec![], vec![])));
}

/// An older frame that comes late does not lower the largest.
fn largest_of_all_frames(examples: &mut Examples) {
    let mut losses = sent(10);
    let frames = (hears(&mut losses, &[(5, 6)]), hears(&mut losses, &[(0, 0)]));
    let wanted = (Ok((vec![5, 6], vec![0, 1, 2, 3])), Ok((vec![0], vec![])));
    examples.check("sent: an older frame behind a newer one", frames, wanted);
    examples.check("  6 stays the largest", losses.largest, Some(6));
}

/// "Outstanding, acknowledged and lost add up to the number sent."
fn sums(examples: &mut Examples) {
    let mut losses = sent(1000);
    for ranges in [&[(500, 600)][..], &[(700, 800), (100, 200)], &[(999, 999), (0, 99)]] {
        assert!(hears(&mut losses, ranges).is_ok());
    }
    examples.check("sent: three frames over a thousand", losses.counts(), [2, 404, 594]);
    examples.check("  add up", losses.counts().iter().sum::<u64>(), 1000);
}

fn full_lists(examples: &mut Examples) {
    let mut losses = sent(HELD);
    let before = losses.clone();
    examples.check("sent: the 1,025th while 0 is outstanding gives 9", losses.send(), Err(NO_ROOM));
    examples.check("  and changes nothing", &losses, &before);
    let mut acknowledged = before.clone();
    assert!(hears(&mut acknowledged, &[(0, 0)]).is_ok());
    examples.check("sent: once 0 is acknowledged a send uses its room", acknowledged.send(), Ok(HELD));
    examples.check(
        "  it keeps its state in the totals",
        (acknowledged.forgotten_acknowledged, acknowledged.counts()),
        (1, [HELD, 1, 0]),
    );
    examples.check("  the next one gives 9: 1 is outstanding", acknowledged.send(), Err(NO_ROOM));
    let mut lost = before;
    assert!(hears(&mut lost, &[(3, 3)]).is_ok());
    examples.check("sent: once 0 is lost too", lost.send(), Ok(HELD));
    examples.check("  it keeps that state", (lost.forgotten_lost, lost.counts()), (1, [HELD - 1, 1, 1]));
}

/// 1,030 were sent, all of the first 1,024 acknowledged but the first two, which were lost: six are forgotten.
fn forgotten(examples: &mut Examples) {
    let mut losses = sent(HELD);
    assert!(hears(&mut losses, &[(2, HELD - 1)]).is_ok());
    (0..6).for_each(|more| assert_eq!(losses.send(), Ok(HELD + more)));
    examples.check("sent: two lost and four acknowledged are forgotten", losses.counts(), [6, HELD - 2, 2]);
    let before = losses.clone();
    examples.check(
        "sent: a range over forgotten numbers alone lists nothing",
        hears(&mut losses, &[(0, 5)]),
        Ok((vec![], vec![])),
    );
    examples.check("  and changes nothing", &losses, &before);
    let across = hears(&mut losses, &[(1029, 1029), (0, 1024)]);
    examples.check(
        "sent: a range that reaches below the oldest marks what is held",
        across,
        Ok((vec![1024, 1029], vec![1025, 1026])),
    );
    examples.check("  the lost ones that were forgotten stay lost", losses.counts(), [2, HELD, 4]);
}

fn last_numbers(examples: &mut Examples) {
    let oldest = LARGEST - HELD;
    let all: Vec<u64> = (oldest..LARGEST).collect();
    let full = Losses { next: LARGEST, acknowledged: all.iter().copied().collect(), forgotten_lost: oldest, ..Losses::default() };
    let mut losses = full.clone();
    examples.check("sent: number 2^62 - 1 may be sent", losses.send(), Ok(LARGEST));
    examples.check("  after it 5", losses.send(), Err(TOO_LARGE));
    examples.check("  it is acknowledged as any other", hears(&mut losses, &[(LARGEST, LARGEST)]), Ok((vec![LARGEST], vec![])));
    let waiting = Losses { next: LARGEST + 1, forgotten_acknowledged: LARGEST + 1 - HELD, ..Losses::default() };
    examples.check("sent: 5 comes before 9 when the oldest is outstanding", waiting.clone().send(), Err(TOO_LARGE));
    let before = Losses { next: LARGEST, forgotten_acknowledged: oldest, ..Losses::default() };
    examples.check("sent: one number before, 9", before.clone().send(), Err(NO_ROOM));
}

fn refusals(examples: &mut Examples) {
    let mut losses = sent(10);
    let before = losses.clone();
    let mut heard = |bytes: &str| losses.heard(&hex(bytes), &mut [], &mut []).map(|heard| heard.used);
    examples.check("sent: an empty frame gives 2", heard(""), Err(ENDS));
    examples.check("sent: a cut frame gives 2, before 16", heard("02 0a 00 00"), Err(ENDS));
    examples.check("sent: another type gives 3", heard("1f"), Err(OTHER_TYPE));
    examples.check("sent: a type in a longer form gives 3", heard("40 02 05 00 00 00"), Err(OTHER_TYPE));
    examples.check("sent: a range below 0 gives 14, before 16", heard("02 0a 00 00 0b"), Err(BELOW_ZERO));
    examples.check("sent: 10 was never sent: 16, before 9", heard("02 0a 00 00 0a"), Err(NEVER_SENT));
    examples.check("sent: 9 was, and no list has room: 9", heard("02 09 00 00 00"), Err(NO_ROOM));
    examples.check("sent: type 03 is cut inside its counts: 2, before 16", heard("03 0a 00 00 00 01 02"), Err(ENDS));
    examples.check("  nothing changed", losses, before);
    let mut none = sent(0);
    examples.check("sent: before the first send every frame gives 16", hears(&mut none, &[(0, 0)]), Err(NEVER_SENT));
    let mut one = sent(1);
    let counted = one.heard(&hex("03 00 00 00 00 07 08 09 ff"), &mut [0], &mut []).map(|heard| (heard.acknowledged, heard.used));
    examples.check("sent: type 03 is taken, and bytes behind it are left", counted, Ok((vec![0], 8)));
}

fn rooms(examples: &mut Examples) {
    let bytes = frame(&[(8, 9), (3, 3)]);
    for (acknowledged, lost) in [(2, 9), (0, 6), (3, 5), (9, 0)] {
        let mut losses = sent(10);
        let mut lists = ([77; 9], [88; 9]);
        let refused = losses.heard(&bytes, &mut lists.0[..acknowledged], &mut lists.1[..lost]).map(|heard| heard.used);
        let name = format!("sent: room for {acknowledged} of 3 and {lost} of 6 gives 9, and nothing is written");
        examples.check(&name, (refused, lists, losses), (Err(NO_ROOM), ([77; 9], [88; 9]), sent(10)));
    }
    let mut lists = ([77; 4], [88; 7]);
    let taken = sent(10).heard(&bytes, &mut lists.0, &mut lists.1).map(|heard| heard.used);
    let wanted = (Ok(bytes.len()), ([3, 8, 9, 77], [0, 1, 2, 4, 5, 6, 88]));
    examples.check("sent: what stands behind the lists' ends stays", (taken, lists), wanted);
}

/// "1 for a record whose parts disagree or break 5": made-up records, each with one clause broken.
fn records(examples: &mut Examples) {
    let full = Losses { next: 1030, forgotten_acknowledged: 4, forgotten_lost: 2, ..Losses::default() };
    let good = Losses {
        acknowledged: [1020, 1029].into(),
        lost: (6..1020).chain(1021..1027).collect(),
        largest: Some(1029),
        ..full.clone()
    };
    examples.check("sent: a made-up record that is consistent", good.clone().send(), Ok(1030));
    let broken = [
        ("forgotten ones that are too few", Losses { forgotten_lost: 1, ..full.clone() }),
        ("forgotten ones that are too many", Losses { forgotten_acknowledged: 5, ..full.clone() }),
        ("forgotten ones while all are held", Losses { forgotten_lost: 1, ..sent(5) }),
        (
            "forgotten ones that come to 2^64 and their number",
            Losses { forgotten_acknowledged: u64::MAX, forgotten_lost: 7, ..full.clone() },
        ),
        ("a number both acknowledged and lost", Losses { acknowledged: [7].into(), lost: [7].into(), ..full.clone() }),
        ("a mark above the held numbers", Losses { acknowledged: [5].into(), ..sent(5) }),
        ("a next number of 2^62 + 1", Losses { next: LARGEST + 2, forgotten_lost: LARGEST + 2 - HELD, ..Losses::default() }),
        ("a largest acknowledged that was never sent", Losses { largest: Some(5), lost: [0, 1, 2].into(), ..sent(5) }),
        (
            "an outstanding number three below the largest",
            Losses { lost: good.lost.iter().copied().filter(|lost| *lost != 1026).collect(), ..good.clone() },
        ),
    ];
    for (what, mut losses) in broken {
        let answers = (losses.send(), losses.heard(&[], &mut [], &mut []).map(|heard| heard.used));
        examples.check(&format!("sent: {what} gives 1, before the others"), answers, (Err(INCONSISTENT), Err(INCONSISTENT)));
    }
}
