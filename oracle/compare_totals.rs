//! The week's totals as a host has them, from made-up totals: reports added one by one, pieces of a file, and the page.

use crate::archive::*;
use crate::numbers::high_first;
use crate::random::Random;
use crate::refusals::{ACCEPTED, ENDS, NO_ROOM, TOO_LONG};
use crate::tally::{Call, Lent, Tally};
use crate::week::{Week, LONGEST, PLACES};
use crate::weeks::{damaged, long_list, report, with_length};

pub fn round(random: &mut Random, tally: &mut Tally) -> Result<(), String> {
    let opened = WeekTotals { sums: [0; PLACES], full: [0; PLACES], skip: 0 };
    tally.compare(Call { name: "totals_open", result: ACCEPTED, given: &() }, opened, unsafe { lumbixet_totals_open() })?;
    let mut given = if random.chance(300) { opened } else { made_up(random) };
    for _ in 0..random.between(1, 6) {
        given = compare_add(random, tally, &given)?;
        given = compare_piece(random, tally, &given)?;
        compare_page(random, tally, &given)?;
    }
    Ok(())
}

/// Any numbers, many of them near 2^64 - 1; mostly nothing is to be skipped.
fn made_up(random: &mut Random) -> WeekTotals {
    let sum = |random: &mut Random| match random.below(4) {
        0 => random.below(100),
        1 => u64::MAX - random.below(8),
        2 => u64::MAX - random.below(4000),
        _ => random.any(),
    };
    let mark = |random: &mut Random| if random.chance(800) { 0 } else { random.any() };
    let mut totals = WeekTotals { sums: [0; PLACES], full: [0; PLACES], skip: 0 };
    totals.sums.fill_with(|| sum(random));
    totals.full.fill_with(|| mark(random));
    if random.chance(200) {
        totals.skip = if random.chance(500) { random.below(300) } else { random.any() };
    }
    totals
}

/// "one that would pass 2^64 - 1 stays there and is marked"
fn with(tally: &mut Tally, given: &WeekTotals, week: &Week) -> WeekTotals {
    let mut next = *given;
    for (place, brought) in week.places().into_iter().enumerate() {
        let sum = u128::from(given.sums[place]) + brought;
        if let Ok(sum) = u64::try_from(sum) {
            next.sums[place] = sum;
        } else {
            (next.sums[place], next.full[place]) = (u64::MAX, 1);
        }
        tally.note("a sum that reaches 2^64 - 1", brought > 0 && sum == u128::from(u64::MAX));
        tally.note("a sum that becomes full", given.full[place] == 0 && next.full[place] == 1);
        tally.note("a sum that was full", brought > 0 && given.full[place] != 0);
    }
    next
}

/// Good, damaged, in a longer form, around the longest that is read, or around the most entries.
fn some_report(random: &mut Random) -> Vec<u8> {
    match random.below(20) {
        0 => {
            let length = LONGEST as usize - 1 + random.below(4) as usize;
            random.bytes(length)
        }
        // a first number below 64 in two bytes
        1 => [&[0x40, random.below(64) as u8], &report(random, 5000)[..]].concat(),
        2..=9 => damaged(random),
        10 => long_list(random),
        _ => report(random, 5000),
    }
}

fn compare_add(random: &mut Random, tally: &mut Tally, given: &WeekTotals) -> Result<WeekTotals, String> {
    let report = some_report(random);
    let mut week = Week::default();
    let length = report.len() as u64;
    if length > LONGEST {
        week.refuse(TOO_LONG);
    } else {
        week.add(&report);
    }
    // it is counted at its number, 0 for accepted
    let counted_as = week.places().iter().position(|count| *count == 1).map_or(u64::MAX, |place| place as u64);
    let papers = Added { counted_as, next: with(tally, given, &week) };
    let archive = unsafe { lumbixet_totals_add(*given, report.as_ptr(), report.len()) };
    tally.compare(Call { name: "totals_add", result: counted_as, given: &(given, &report) }, papers, archive)?;
    tally.note("20 for a report of 8,193 bytes", counted_as == TOO_LONG && length == LONGEST + 1);
    tally.note("another number for a report of 8,192 bytes", counted_as != TOO_LONG && length == LONGEST);
    Ok(archive.next)
}

/// Some reports of a file, cut anywhere.
fn compare_piece(random: &mut Random, tally: &mut Tally, given: &WeekTotals) -> Result<WeekTotals, String> {
    let mut bytes = Vec::new();
    for _ in 0..random.below(6) {
        with_length(&mut bytes, &some_report(random));
    }
    if random.chance(500) {
        bytes.truncate(random.below(bytes.len() as u64 + 1) as usize);
    }
    let papers = taken(tally, given, &bytes);
    let archive = unsafe { lumbixet_totals_piece(*given, bytes.as_ptr(), bytes.len()) };
    tally.compare(Call { name: "totals_piece", result: ACCEPTED, given: &(given, &bytes) }, papers, archive)?;
    Ok(archive.next)
}

/// What is whole is taken: bytes to be skipped, and each report behind its length.
fn taken(tally: &mut Tally, given: &WeekTotals, bytes: &[u8]) -> Taken {
    let mut week = Week::default();
    let (mut rest, mut skip) = (bytes, given.skip);
    loop {
        let skipped = skip.min(rest.len() as u64);
        rest = &rest[skipped as usize..];
        skip -= skipped;
        if skip > 0 || rest.len() < 4 {
            tally.note("a piece that ends while a long report is skipped", skip > 0);
            tally.note("a piece that ends in a length", skip == 0 && !rest.is_empty());
            break;
        }
        let length = high_first(&rest[..4]);
        if length > LONGEST {
            week.refuse(TOO_LONG);
            (rest, skip) = (&rest[4..], length);
        } else if let Some(report) = rest[4..].get(..length as usize) {
            week.add(report);
            rest = &rest[4 + report.len()..];
        } else {
            tally.note("a piece that ends in a report", true);
            break;
        }
    }
    let next = WeekTotals { skip, ..with(tally, given, &week) };
    Taken { next, used: (bytes.len() - rest.len()) as u64 }
}

/// "It prints reports accepted, reports refused for each number that occurs, rising, the four summary totals and the entry count
/// by status."
fn page(given: &WeekTotals) -> String {
    let mut page = String::new();
    for place in 0..PLACES {
        let name = match place {
            0 => "accepted".to_string(),
            21 => "total".to_string(),
            22 => "received".to_string(),
            23 => "late".to_string(),
            24 => "lost".to_string(),
            25 => "entries received".to_string(),
            26 => "entries late".to_string(),
            27 => "entries not received".to_string(),
            28 => "entries partial".to_string(),
            _ => format!("refused {place}"),
        };
        let mark = if given.full[place] == 0 { "" } else { " full" };
        if !(1..=20).contains(&place) || given.sums[place] > 0 {
            page += &format!("{name} {}{mark}\n", given.sums[place]);
        }
    }
    page
}

/// "9 the smallest permitted output does not fit the room": the page is one output, so 9 goes by its own length. In just that room,
/// in one byte less, and in any; with bytes left of the file, and without.
fn compare_page(random: &mut Random, tally: &mut Tally, given: &WeekTotals) -> Result<(), String> {
    let left = random.one_of(&[0, 0, 0, 1, usize::MAX]);
    let early = given.skip > 0 || left > 0;
    let text = if early { format!("{ENDS}\n") } else { page(given) };
    let any = random.below(2000) as usize;
    let length = random.one_of(&[text.len(), text.len(), text.len() - 1, text.len() + 40, any, 0]);
    let mut papers_lent = Lent::new(random, length);
    let mut archive_lent = Lent { memory: papers_lent.memory.clone(), length };
    let papers = if length < text.len() {
        Page { result: NO_ROOM, length: 0 }
    } else {
        papers_lent.buffer()[..text.len()].copy_from_slice(text.as_bytes());
        Page { result: ACCEPTED, length: text.len() as u64 }
    };
    let archive = unsafe { lumbixet_totals_page(*given, left, archive_lent.buffer().as_mut_ptr(), length) };
    let call = Call { name: "totals_page", result: papers.result, given: &(given, left, length) };
    tally.compare(call, (papers, papers_lent.memory), (archive, archive_lent.memory))?;
    tally.note("a page of 2 alone", early && papers.result == ACCEPTED);
    tally.note("a page that just fits", !early && length == text.len());
    tally.note("9 for a room that lacks one byte", !early && length + 1 == text.len());
    Ok(())
}
