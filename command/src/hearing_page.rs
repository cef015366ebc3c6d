//! The page of a hearing: its picture, its counts with percentages, and its refusals in words.

use lumbixet::Refusal;

use crate::axis::said;
use crate::dates;
use crate::kinds::{ALL, CAME, LATE, LOST, MARKED, REFUSED, WRITTEN};
use crate::page::Page;
use crate::picture;
use crate::tally::Tally;
use crate::text::{counted, grouped, percent};

/// So many refused records are told one by one.
pub const TOLD: usize = 100;

/// A hearing of one file, played to its end; `refused` has the first refused records as sentences.
pub fn put(page: &mut Page, name: &str, tally: &mut Tally, refused: &[String]) {
    page.heading(name);
    page.paragraph(&opening(tally));
    if let (Some(origin), Some((first, last))) = (tally.origin, tally.span) {
        let at = |time: i64| (origin as i64 + time) as u64;
        page.paragraph(&dates::between(at(first), at(last)));
    }
    page.picture(&picture::draw(tally));
    packets(page, tally);
    acknowledgments(page, tally);
    refusals(page, tally, refused);
}

fn opening(tally: &Tally) -> String {
    let refused = tally.counts[REFUSED];
    let all = counted(tally.records, "record");
    let share = percent(refused, tally.records);
    let answered = format!("{all}: {} accepted, {} refused{share}.", grouped(tally.records - refused), grouped(refused));
    match tally.span {
        Some((first, last)) => format!("{answered} From {} to {} after the first record.", said(first), said(last)),
        None => answered,
    }
}

fn packets(page: &mut Page, tally: &Tally) {
    let numbers: u64 = [CAME, LATE, LOST].iter().map(|kind| tally.counts[*kind]).sum();
    let row = |kind: usize, of: u64| {
        vec![ALL[kind].words.to_string(), grouped(tally.counts[kind]), percent_alone(tally.counts[kind], of)]
    };
    page.heading("Packets");
    page.table(
        &["What became of a number", "#how many", "#share"],
        &[row(CAME, numbers), row(LATE, numbers), row(LOST, numbers)],
    );
    let came = tally.counts[CAME] + tally.counts[LATE];
    page.paragraph(&format!(
        "Of those that came, {} {}{}.",
        grouped(tally.counts[MARKED]),
        ALL[MARKED].words,
        percent(tally.counts[MARKED], came)
    ));
}

fn acknowledgments(page: &mut Page, tally: &Tally) {
    let due: u64 = tally.counts[REFUSED + 1..WRITTEN].iter().sum();
    let row =
        |kind: usize| vec![ALL[kind].words.to_string(), grouped(tally.counts[kind]), percent_alone(tally.counts[kind], due)];
    page.heading("Acknowledgments");
    page.table(&["Became due by", "#how often", "#share"], &(REFUSED + 1..WRITTEN).map(row).collect::<Vec<_>>());
    page.paragraph(&format!("Due {} times in all; written {} times.", grouped(due), grouped(tally.counts[WRITTEN])));
}

fn refusals(page: &mut Page, tally: &Tally, refused: &[String]) {
    page.heading("Refusals");
    if tally.refusals.is_empty() {
        return page.paragraph("Nothing was refused.");
    }
    let row = |(number, count): (&u64, &u64)| {
        let words = Refusal::from_number(*number).to_string();
        vec![number.to_string(), words, grouped(count), percent_alone(*count, tally.records)]
    };
    page.table(&["#No.", "In words", "#how often", "#share"], &tally.refusals.iter().map(row).collect::<Vec<_>>());
    page.list(refused);
    let more = tally.counts[REFUSED].saturating_sub(refused.len() as u64);
    if more > 0 {
        page.paragraph(&format!("And {} more.", grouped(more)));
    }
}

/// Without the brackets.
fn percent_alone(part: u64, whole: u64) -> String {
    percent(part, whole).trim_start_matches(" (").trim_end_matches(')').to_string()
}
