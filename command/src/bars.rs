//! Numbers as bars, in blocks with a heading: each has a letter beside its colour, and each block one scale.

use lumbixet::Sum;

use crate::sums::shown;
use crate::svg::{Style, Svg};
use crate::week_words::share;

const LEFT: f64 = 520.0;
const RIGHT: f64 = 960.0;
const WIDTH: f64 = 1200.0;
const ROW: f64 = 30.0;

/// What became of an object: its letter, and the class that paints it. Nothing else is shown by colour alone.
pub const LOOKS: [(&str, &str, &str); 9] = [
    ("accepted", "A", "due5"),
    ("refused", "X", "lost"),
    ("received", "R", "due5"),
    ("late", "L", "late"),
    ("lost", "\u{2013}", "lost"),
    ("not received", "\u{2013}", "lost"),
    ("partial", "P", "due1"),
    ("no status yet", "\u{b7}", "plot"),
    ("total", "\u{3a3}", "came"),
];

/// A small box with the letter of a name.
pub fn badge(svg: &mut Svg, x: f64, y: f64, name: &str) {
    cell(svg, (x, y), (20.0, 20.0), name);
}

/// A box with the letter of a name in its middle.
pub fn cell(svg: &mut Svg, (x, y): (f64, f64), (width, height): (f64, f64), name: &str) {
    let (_, letter, class) = LOOKS.iter().find(|(own, _, _)| *own == name).unwrap_or(&LOOKS[1]);
    svg.rect((x, y), (width, height), class);
    let on = if *class == "plot" { "soft" } else { "on" };
    let style = Style { anchor: "middle", bold: true, class: on, ..Style::default() };
    svg.text(x + width / 2.0, y + height / 2.0 + 5.0, letter, style);
}

/// A row: how it looks, its words, and the sum.
pub type Bar = (&'static str, String, Sum);

/// One heading and its bars, with the share of the whole; gives the height below them.
pub fn block(svg: &mut Svg, top: f64, title: &str, bars: &[Bar], whole: Sum) -> f64 {
    svg.text(30.0, top, title, Style { size: 18, bold: true, ..Style::default() });
    svg.line((30.0, top + 8.0), (WIDTH - 30.0, top + 8.0), "grid");
    let most = bars.iter().map(|(_, _, sum)| sum.value).max().unwrap_or(0).max(1);
    let mut y = top;
    for (look, words, sum) in bars {
        y += ROW;
        let class = LOOKS.iter().find(|(own, _, _)| own == look).map_or("lost", |(_, _, class)| class);
        let length = (RIGHT - LEFT) * sum.value as f64 / most as f64;
        svg.text(LEFT - 42.0, y + 5.0, words, Style { size: 15, anchor: "end", ..Style::default() });
        badge(svg, LEFT - 32.0, y - 10.0, look);
        if sum.value > 0 {
            svg.rect((LEFT, y - 9.0), (length.max(2.0), 18.0), class);
        }
        let said = format!("{}{}", shown(*sum), share(*sum, whole));
        svg.text(LEFT + length + 8.0, y + 5.0, &said, Style { size: 15, ..Style::default() });
    }
    y + ROW + 24.0
}
