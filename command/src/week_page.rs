//! The page of a week in HTML: the picture, the sums with percentages, the refusals in words, and a row for each file.

use lumbixet::Sum;

use crate::page::{Page, PROVED};
use crate::sums::{shown, sum_of, Sums};
use crate::week::{rows, Weeks, HEADINGS};
use crate::week_picture;
use crate::week_words::{share, EARLY};

pub fn make(weeks: &Weeks) -> String {
    let mut page = Page::new("A week's reports");
    let names: Vec<&str> = weeks.each.iter().map(|(name, _)| &name[..]).collect();
    page.paragraph(&names.join(", "));
    let sums = &weeks.all;
    page.picture(&week_picture::draw(sums));
    if sums.early {
        page.paragraph(EARLY);
    } else {
        tables(&mut page, sums);
    }
    if names.len() > 1 {
        page.heading("Each file");
        let headings: Vec<String> =
            HEADINGS.iter().enumerate().map(|(at, name)| format!("{}{name}", if at > 0 { "#" } else { "" })).collect();
        let headings: Vec<&str> = headings.iter().map(|name| &name[..]).collect();
        page.table(&headings, &rows(weeks, Some(sums))[1..]);
    }
    page.end(PROVED)
}

fn tables(page: &mut Page, sums: &Sums) {
    let row = |name: &str, sum: Sum, whole: Sum| vec![name.to_string(), shown(sum), alone(&share(sum, whole))];
    let (accepted, refused) = (sums.week.accepted(), sums.refused_in_all());
    let reports = sum_of([accepted, refused].into_iter());
    page.heading("Reports");
    page.table(&["Reports", "#how many", "#share"], &[row("accepted", accepted, reports), row("refused", refused, reports)]);
    page.heading("Refusals");
    let refusals = sums
        .week
        .refusals()
        .map(|(refusal, sum)| vec![refusal.number().to_string(), refusal.to_string(), shown(sum), alone(&share(sum, reports))]);
    match refusals.collect::<Vec<_>>() {
        none if none.is_empty() => page.paragraph("Nothing was refused."),
        some => page.table(&["#No.", "In words", "#how many", "#share"], &some),
    }
    page.heading("Objects");
    let objects = sums.objects().map(|(name, sum)| row(name, sum, sums.week.total()));
    page.table(&["By the summaries of the accepted reports", "#how many", "#share"], &objects);
    page.heading("Entries");
    let all = sum_of(sums.entries().into_iter().map(|(_, sum)| sum));
    page.table(&["By status", "#how many", "#share"], &sums.entries().map(|(name, sum)| row(name, sum, all)));
}

/// Without the brackets.
fn alone(share: &str) -> String {
    share.trim_start_matches(" (").trim_end_matches(')').to_string()
}
