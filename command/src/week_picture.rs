//! A week as a picture: reports accepted and refused, objects by what became of them, entries by status.

use crate::bars::{block, Bar};
use crate::sums::{sum_of, Sums};
use crate::svg::{Style, Svg};
use crate::week_words;

const WIDTH: f64 = 1200.0;
const TITLE: &str = "The week's totals";

pub fn draw(sums: &Sums) -> String {
    let mut svg = Svg::default();
    svg.text(30.0, 44.0, TITLE, Style { size: 26, bold: true, ..Style::default() });
    let mut y = 96.0;
    if sums.early {
        svg.text(30.0, y, week_words::EARLY, Style { size: 18, class: "bad", ..Style::default() });
        y += 40.0;
    } else {
        if let Some(times) = week_words::times(sums) {
            svg.text(30.0, 70.0, &times, Style { size: 14, class: "soft", ..Style::default() });
            y += 16.0;
        }
        y = blocks(&mut svg, sums, y);
    }
    svg.end(WIDTH, y, TITLE, &week_words::sentences(sums))
}

fn blocks(svg: &mut Svg, sums: &Sums, top: f64) -> f64 {
    let (accepted, refused) = (sums.week.accepted(), sums.refused_in_all());
    let refusals = sums.week.refusals().map(|(refusal, sum)| ("refused", format!("{}: {refusal}", refusal.number()), sum));
    let reports: Vec<Bar> = std::iter::once(("accepted", "accepted".to_string(), accepted)).chain(refusals).collect();
    let bars = |rows: &[(&'static str, lumbixet::Sum)]| {
        rows.iter().map(|(name, sum)| (*name, name.to_string(), *sum)).collect::<Vec<Bar>>()
    };
    let y = block(svg, top, "Reports, how many", &reports, sum_of([accepted, refused].into_iter()));
    let y = block(svg, y, "Objects, by the summaries of the accepted reports", &bars(&sums.objects()), sums.week.total());
    let entries = sum_of(sums.entries().into_iter().map(|(_, sum)| sum));
    block(svg, y, "Entries of the accepted reports, by status", &bars(&sums.entries()), entries)
}
