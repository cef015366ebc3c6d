//! A hearing as a picture: few things each by itself, many in columns.

use crate::axis::{said, Times, LEFT, RIGHT};
use crate::bins::Counts;
use crate::kinds::{ALL, CAME, LATE, LOST, MARKED, REFUSED};
use crate::packets;
use crate::strips;
use crate::svg::{self, Style, Svg};
use crate::tally::Tally;
use crate::text::grouped;

pub const WIDTH: f64 = 1300.0;

const EACH: &str = "A hearing, packet by packet";
const MANY: &str = "A hearing over time";

/// The whole picture, as SVG.
pub fn draw(tally: &mut Tally) -> String {
    let mut svg = Svg::default();
    svg.add(&svg::shapes());
    let title = if tally.things.is_some() { EACH } else { MANY };
    svg.text(30.0, 38.0, title, Style { size: 22, bold: true, ..Style::default() });
    let (low, high) = tally.span.unwrap_or((0, 0));
    let times = Times { low, high: high.max(low + 1) };
    let height = match tally.things.take() {
        Some(things) => {
            let height = packets::draw(&mut svg, tally, &things, &times);
            tally.things = Some(things);
            height
        }
        None => strips::draw(&mut svg, tally, &times),
    };
    svg.end(WIDTH, height, title, &summary(tally))
}

/// What the picture says, in a sentence.
fn summary(tally: &Tally) -> String {
    let counts = ALL.iter().zip(tally.counts).map(|(kind, count)| format!("{}: {}", kind.words, grouped(count)));
    counts.collect::<Vec<_>>().join("; ")
}

/// A line below the title: what is drawn, and of which part of the hearing.
pub fn subtitle(svg: &mut Svg, tally: &Tally, words: &str) {
    let part = match (tally.range.from, tally.range.to) {
        (None, None) => String::new(),
        (from, to) => {
            let end = to.map_or("its end".to_string(), |to| said(to.min(i64::MAX as u64) as i64));
            format!(" Only from {} to {end}.", said(from.unwrap_or(0).min(i64::MAX as u64) as i64))
        }
    };
    svg.text(30.0, 62.0, &format!("{words}{part}"), Style { size: 14, class: "soft", ..Style::default() });
}

/// A count, which a test finds by its name, and how many of it the picture does not show.
pub fn count(tally: &Tally, drawn: &Counts, kind: usize) -> String {
    let name = ALL[kind].name;
    let all = format!(r#"<tspan data-count="{name}" font-weight="600">{}</tspan>"#, grouped(tally.counts[kind]));
    match tally.counts[kind] - drawn[kind] {
        0 => all,
        outside => format!(r#"{all} (<tspan data-outside="{name}">{}</tspan> outside)"#, grouped(outside)),
    }
}

/// The marks of the packets with their words and counts, outside the plot.
pub fn legend(svg: &mut Svg, tally: &Tally, drawn: &Counts, top: f64) {
    for (place, kind) in [CAME, LATE, LOST, REFUSED, MARKED].into_iter().enumerate() {
        let (x, y) = (44.0 + 620.0 * (place / 3) as f64, top + 22.0 * (place % 3) as f64);
        let behind = match kind {
            LATE => "; a line shows by how much",
            LOST => "; drawn where the usual pace puts it",
            _ => "",
        };
        svg.mark(kind, x, y, "");
        svg.spans(x + 18.0, y + 4.0, &format!("{}: {}{behind}", ALL[kind].words, count(tally, drawn, kind)), Style::default());
    }
}

/// The words of a row at the left with its mark.
pub fn words_at_left(svg: &mut Svg, kind: usize, words: &str, y: f64) {
    svg.text(LEFT - 34.0, y + 4.0, words, Style { anchor: "end", ..Style::default() });
    svg.mark(kind, LEFT - 20.0, y, "");
}

/// A count at the right of its row, in letters that fit.
pub fn count_at_right(svg: &mut Svg, tally: &Tally, drawn: &Counts, kind: usize, y: f64) {
    let outside = if drawn[kind] < tally.counts[kind] { "(9 outside)" } else { "" };
    let size = fitted(&format!("{}{outside}", grouped(tally.counts[kind])));
    svg.spans(RIGHT + 12.0, y, &count(tally, drawn, kind), Style { size, ..Style::default() });
}

/// The size of letters with which a text fits beside the plot.
pub fn fitted(text: &str) -> u32 {
    (170 / text.len().max(1) as u32).clamp(6, 13)
}
