//! A hearing with many packets: for each thing that can happen a strip of columns over time, each strip with its own scale.

use std::collections::BTreeMap;

use crate::axis::{said, Times, LEFT, RIGHT};
use crate::bins::Counts;
use crate::kinds::{ALL, KINDS, REFUSED};
use crate::picture::{count_at_right, fitted, subtitle, words_at_left};
use crate::svg::{length, Style, Svg};
use crate::tally::Tally;
use crate::text::grouped;

const TOP: f64 = 100.0;
const STRIP: f64 = 46.0;
const HIGHEST: f64 = 32.0;
const HEADING: f64 = 20.0;

/// Draws all of it, and says how high it is.
pub fn draw(svg: &mut Svg, tally: &mut Tally, times: &Times) -> f64 {
    let (width, columns) = tally.bins.columns((times.high - times.low) as u64, (RIGHT - LEFT) as u64);
    subtitle(svg, tally, &format!("How often each thing happened, in columns of {}; each row has its own scale.", said(width)));
    let bottom = foot(KINDS - 1) + 8.0;
    svg.rect((LEFT, TOP - 8.0), (RIGHT - LEFT, bottom - TOP + 8.0), "plot");
    let drawn: BTreeMap<i64, Counts> =
        columns.into_iter().filter(|(key, _)| times.has(key * width) || times.has((key + 1) * width - 1)).collect();
    let mut sums = [0; KINDS];
    drawn.values().for_each(|counts| sums.iter_mut().zip(counts).for_each(|(sum, count)| *sum += count));
    let bold = Style { anchor: "end", bold: true, ..Style::default() };
    svg.text(LEFT - 12.0, foot(REFUSED) + 22.0, "An acknowledgment became due by", bold);
    for kind in 0..KINDS {
        strip(svg, kind, &drawn, width, times);
        count_at_right(svg, tally, &sums, kind, foot(kind) - 16.0);
    }
    for (key, counts) in &drawn {
        let (from, to) = (place(times, key * width), place(times, (key + 1) * width));
        let [x, y, wide, high] = [from, TOP - 8.0, to - from, bottom - TOP + 8.0].map(length);
        let words = format!("{} to {}: {}", said(key * width), said((key + 1) * width), happened(counts));
        svg.add(&format!(
            r#"<rect fill-opacity="0" x="{x}" y="{y}" width="{wide}" height="{high}"><title>{words}</title></rect>"#
        ));
    }
    times.draw(svg, bottom);
    bottom + 56.0
}

/// Where a strip stands; those of the causes have a heading.
fn foot(kind: usize) -> f64 {
    TOP + STRIP * (kind + 1) as f64 - 8.0 + if kind > REFUSED { HEADING } else { 0.0 }
}

/// Where a time stands, inside the plot.
fn place(times: &Times, time: i64) -> f64 {
    times.x(time as f64).clamp(LEFT, RIGHT)
}

fn happened(counts: &Counts) -> String {
    let some = ALL.iter().zip(counts).filter(|(_, count)| **count > 0);
    some.map(|(kind, count)| format!("{} {}", kind.name, grouped(count))).collect::<Vec<_>>().join(", ")
}

/// The columns of one kind, and at the sides its words, how often it happened, and the most in a column.
fn strip(svg: &mut Svg, kind: usize, columns: &BTreeMap<i64, Counts>, width: i64, times: &Times) {
    let foot = foot(kind);
    let most = columns.values().map(|counts| counts[kind]).max().unwrap_or(0);
    svg.line((LEFT, foot), (RIGHT, foot), "grid");
    words_at_left(svg, kind, ALL[kind].words, foot - 14.0);
    if most > 0 {
        let words = format!("up to {} a column", grouped(most));
        let size = fitted(&words).min(11);
        svg.text(RIGHT + 12.0, foot, &words, Style { size, class: "soft", ..Style::default() });
    }
    let mut bars = String::new();
    for (key, counts) in columns.iter().filter(|(_, counts)| counts[kind] > 0) {
        let (from, to) = (place(times, key * width), place(times, (key + 1) * width));
        // what happened once is still seen
        let high = (HIGHEST * counts[kind] as f64 / most as f64).max(1.5);
        let wide = (to - from).max(1.0);
        bars += &format!("M{} {}h{}v-{}h-{}z", length(from), length(foot), length(wide), length(high), length(wide));
    }
    svg.add(&format!(r#"<path class="{}" d="{bars}"/>"#, ALL[kind].name));
}
