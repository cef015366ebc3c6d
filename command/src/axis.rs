//! Where times stand in a picture, and the axis below it with its unit.

use crate::svg::{Style, Svg};
use crate::text::grouped;

/// Where a hearing is drawn from and to.
pub const LEFT: f64 = 330.0;
pub const RIGHT: f64 = 1180.0;

/// The smallest of 1, 2, 5, 10, 20, .. that cuts the span into at most so many parts.
pub fn nice_step(span: u64, most: u64) -> u64 {
    let mut scale: u64 = 1;
    loop {
        for step in [1, 2, 5].map(|digit| scale.saturating_mul(digit)) {
            if u128::from(span) <= u128::from(step) * u128::from(most) {
                return step;
            }
        }
        scale = scale.saturating_mul(10);
    }
}

/// A unit of time: its name, its sign, and how many microseconds it has.
type Unit = (&'static str, &'static str, i64);

const UNITS: [Unit; 5] = [
    ("microseconds", "us", 1),
    ("milliseconds", "ms", 1_000),
    ("seconds", "s", 1_000_000),
    ("minutes", "min", 60_000_000),
    ("hours", "h", 3_600_000_000),
];

/// The largest unit of which a span has at least ten, or the smallest.
fn unit_of(span: i64) -> Unit {
    UNITS.into_iter().rev().find(|(_, _, length)| span >= 10 * length).unwrap_or(UNITS[0])
}

/// A time with its unit, exactly: `1.5 s`, `250 ms`.
pub fn said(time: i64) -> String {
    let (_, sign, length) = UNITS[..3].iter().rev().find(|(_, _, length)| time.abs() >= *length).copied().unwrap_or(UNITS[0]);
    let digits = format!("{:06}", time.abs() % length * (1_000_000 / length));
    let behind = digits.trim_end_matches('0');
    let sign_of = if time < 0 { "-" } else { "" };
    format!("{sign_of}{}{}{behind} {sign}", grouped(time.abs() / length), if behind.is_empty() { "" } else { "." })
}

/// Times in microseconds since the first record, from `low` to `high`.
pub struct Times {
    pub low: i64,
    pub high: i64,
}

impl Times {
    pub fn x(&self, time: f64) -> f64 {
        LEFT + (RIGHT - LEFT) * (time - self.low as f64) / (self.high - self.low).max(1) as f64
    }

    pub fn has(&self, time: i64) -> bool {
        self.low <= time && time <= self.high
    }

    /// The axis at the height `y`, with its unit below it.
    pub fn draw(&self, svg: &mut Svg, y: f64) {
        let (name, _, length) = unit_of(self.high - self.low);
        let step = nice_step(((self.high - self.low) / length) as u64, 12) as i64 * length;
        svg.line((LEFT, y), (RIGHT, y), "axis");
        let mut time = self.low.div_euclid(step) * step;
        while time <= self.high {
            if time >= self.low {
                let x = self.x(time as f64);
                svg.line((x, y), (x, y + 5.0), "axis");
                svg.text(x, y + 19.0, &grouped(time / length), Style { size: 12, anchor: "middle", ..Style::default() });
            }
            time += step;
        }
        let said = format!("time in {name} since the first record");
        svg.text((LEFT + RIGHT) / 2.0, y + 40.0, &said, Style { anchor: "middle", ..Style::default() });
    }
}
