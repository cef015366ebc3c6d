//! The statuses of objects as a picture: each report is a column with its time above it and its summary below, each object a row.
//! What is said between two reports stands under the picture, with the number of the report that follows.

use crate::axis::said;
use crate::bars::{badge, cell};
use crate::objects::{Line, Strip, LETTERS, SUMMARY};
use crate::svg::{Style, Svg};
use crate::text::{counted, grouped};

const TITLE: &str = "A hearing's objects, and the reports on them";
const LEFT: f64 = 150.0;
const TOP: f64 = 152.0;
const COLUMN: f64 = 112.0;
const ROW: f64 = 34.0;

/// So many reports and objects are drawn at most; a tracker has 256 objects.
const MOST: usize = 100;
const MOST_OBJECTS: usize = 256;

pub fn draw(lines: &[Line], first: u64) -> String {
    let strips: Vec<&Strip> = lines.iter().filter_map(Line::strip).take(MOST).collect();
    let objects = strips.iter().map(|strip| strip.statuses.len()).max().unwrap_or(0).min(MOST_OBJECTS);
    let mut svg = Svg::default();
    svg.text(30.0, 44.0, TITLE, Style { size: 26, bold: true, ..Style::default() });
    for (place, (_, status)) in LETTERS.iter().enumerate() {
        let x = 30.0 + 170.0 * place as f64;
        badge(&mut svg, x, 62.0, status);
        svg.text(x + 28.0, 77.0, status, Style { size: 15, ..Style::default() });
    }
    let said = cut(lines, strips.len(), objects);
    svg.text(30.0, 104.0, &said, Style { size: 14, class: "soft", ..Style::default() });
    let below = TOP + ROW * objects as f64 + 24.0;
    names(&mut svg, first, objects, below);
    for (place, strip) in strips.iter().enumerate() {
        column(&mut svg, place, strip, objects, below);
    }
    let height = remarks(&mut svg, lines, below + 22.0 * SUMMARY.len() as f64 + 16.0);
    let width = (LEFT + COLUMN * strips.len() as f64 + 30.0).max(1200.0);
    svg.end(width, height, TITLE, &said)
}

/// How much is drawn, and of how much.
fn cut(lines: &[Line], reports: usize, objects: usize) -> String {
    let all = lines.iter().filter_map(Line::strip).count();
    let longest = lines.iter().filter_map(Line::strip).map(|strip| strip.statuses.len()).max().unwrap_or(0);
    let of = |drawn: usize, all: usize, thing: &str| match all - drawn {
        0 => counted(all, thing),
        _ => format!("the first {} of {}", grouped(drawn), counted(all, thing)),
    };
    format!("{} on {}", of(reports, all, "report"), of(objects, longest, "object"))
}

/// The names of the rows.
fn names(svg: &mut Svg, first: u64, objects: usize, below: f64) {
    let right = || Style { size: 15, anchor: "end", ..Style::default() };
    for row in 0..objects {
        let number = grouped(first.saturating_add(row as u64));
        svg.text(LEFT - 14.0, TOP + ROW * row as f64 + 19.0, &format!("object {number}"), right());
    }
    for (row, name) in SUMMARY.iter().enumerate() {
        let unit = if *name == "average" { "average, us" } else { name };
        svg.text(LEFT - 14.0, below + 22.0 * row as f64, unit, right());
    }
}

fn column(svg: &mut Svg, place: usize, strip: &Strip, objects: usize, below: f64) {
    let x = LEFT + COLUMN * place as f64;
    let middle = x + (COLUMN - 6.0) / 2.0;
    let head = format!("{}: {}", place + 1, said(strip.time.min(i64::MAX as u64) as i64));
    svg.text(middle, TOP - 12.0, &head, Style { size: 15, anchor: "middle", bold: true, ..Style::default() });
    for (row, status) in strip.statuses.iter().take(objects).enumerate() {
        cell(svg, (x, TOP + ROW * row as f64), (COLUMN - 6.0, ROW - 6.0), status);
    }
    for (row, number) in strip.summary.iter().enumerate() {
        let style = Style { size: 15, anchor: "middle", ..Style::default() };
        svg.text(middle, below + 22.0 * row as f64, &grouped(number), style);
    }
}

/// What is said before each report, with its number; gives the height below.
fn remarks(svg: &mut Svg, lines: &[Line], top: f64) -> f64 {
    let (mut y, mut report) = (top, 1);
    for line in lines {
        match line {
            Line::Strip(_) => report += 1,
            Line::Remark(words) if report <= MOST + 1 => {
                y += 24.0;
                svg.text(30.0, y, &report.to_string(), Style { size: 15, bold: true, ..Style::default() });
                svg.text(60.0, y, words, Style { size: 15, ..Style::default() });
            }
            Line::Remark(_) => {}
        }
    }
    y + 30.0
}
