//! A hearing with few packets. Above: packet numbers over time; what came, came late, never came, was refused. Below, over the
//! same time: why an acknowledgment became due, a row for each cause, when one was written, and what was refused.

use crate::axis::{nice_step, said, Times, LEFT, RIGHT};
use crate::bins::Counts;
use crate::gaps::Gap;
use crate::kinds::{self, CAME, KINDS, LATE, LOST, MARKED, REFUSED, WRITTEN};
use crate::picture::{count_at_right, legend, subtitle, words_at_left};
use crate::svg::{Style, Svg};
use crate::tally::{Happened, Tally, Thing};
use crate::text::grouped;

const TOP: f64 = 166.0;
const BOTTOM: f64 = 586.0;
const ROW: f64 = 26.0;

/// Of a longer gap only the two ends have a mark; where so many numbers never came, of every gap.
const LONG_GAP: u64 = 64;
const MANY_LOST: u64 = 2_000;

/// Packet numbers from `low` to `high`.
struct Numbers {
    low: u64,
    high: u64,
}

impl Numbers {
    /// Those that came. Below them those that never came, where they are no more than those above.
    fn of(things: &[Happened]) -> Numbers {
        let came = || {
            things.iter().filter_map(|happened| match happened.thing {
                Thing::Came(number, _) | Thing::Late(number, _) => Some(number),
                _ => None,
            })
        };
        let lost = things.iter().filter_map(Happened::gap).map(|gap| gap.first);
        let (low, high) = came().min().zip(came().max()).unwrap_or((0, 1));
        let below = lost.min().unwrap_or(low).min(low);
        Numbers { low: if low - below <= (high - low).max(20) { below } else { low }, high }
    }

    fn y(&self, number: u64) -> f64 {
        let above = u128::from(number.saturating_sub(self.low)) * (BOTTOM - TOP - 16.0) as u128;
        BOTTOM - 8.0 - above as f64 / (self.high - self.low).max(1) as f64
    }

    fn has(&self, number: u64) -> bool {
        self.low <= number && number <= self.high
    }
}

/// Draws all of it, and says how high it is.
pub fn draw(svg: &mut Svg, tally: &Tally, things: &[Happened], times: &Times) -> f64 {
    let numbers = Numbers::of(things);
    subtitle(
        svg,
        tally,
        "Above: which packets came. Below, over the same time: why an acknowledgment was due, and when one was written.",
    );
    let drawn = drawn(things, times, &numbers);
    legend(svg, tally, &drawn, 92.0);
    let first = BOTTOM + 52.0;
    let bottom = first + ROW * (KINDS - REFUSED) as f64 - 4.0;
    draw_numbers(svg, &numbers);
    times.draw(svg, bottom);
    draw_rows(svg, things, times, first);
    for kind in REFUSED + 1..KINDS {
        count_at_right(svg, tally, &drawn, kind, height(first, kind) + 4.0);
    }
    draw_packets(svg, things, times, &numbers);
    bottom + 56.0
}

/// How many things of each kind have a mark.
fn drawn(things: &[Happened], times: &Times, numbers: &Numbers) -> Counts {
    let mut drawn = [0; KINDS];
    for Happened { time, thing } in things {
        let (kind, count) = match thing {
            Thing::Came(..) => (CAME, 1),
            Thing::Late(..) => (LATE, 1),
            Thing::Marked(_) => (MARKED, 1),
            Thing::Lost(gap) => (LOST, if numbers.has(gap.first) { gap.count() } else { 0 }),
            Thing::Refused(..) => (REFUSED, u64::from(times.has(*time))),
            Thing::Due(cause) => (kinds::due(*cause).unwrap_or(REFUSED), u64::from(times.has(*time))),
            Thing::Written => (WRITTEN, u64::from(times.has(*time))),
        };
        drawn[kind] += count;
    }
    drawn
}

fn draw_numbers(svg: &mut Svg, numbers: &Numbers) {
    svg.rect((LEFT, TOP), (RIGHT - LEFT, BOTTOM - TOP), "plot");
    let step = nice_step(numbers.high - numbers.low, 10);
    let mut number = (numbers.low + step - 1) / step * step;
    while number <= numbers.high {
        let y = numbers.y(number);
        svg.line((LEFT, y), (RIGHT, y), "grid");
        svg.text(LEFT - 8.0, y + 4.0, &grouped(number), Style { size: 12, anchor: "end", ..Style::default() });
        number += step;
    }
    let middle = (TOP + BOTTOM) / 2.0;
    // numbers of 19 digits have room between the axis and its name
    let x = LEFT - 12.0 - 8.0 * (grouped(numbers.high).len() as f64).max(5.0);
    let turned = format!("transform=\"rotate(-90 {x} {middle})\"");
    svg.text(x, middle, "packet number", Style { anchor: "middle", more: &turned, ..Style::default() });
}

/// The height of a row: the causes, the writes, and then what was refused.
fn height(first: f64, kind: usize) -> f64 {
    first + ROW * if kind == REFUSED { (WRITTEN - REFUSED) as f64 } else { (kind - REFUSED - 1) as f64 }
}

/// A row for each cause, one for the writes, whose line goes up through everything, and one for what was refused.
fn draw_rows(svg: &mut Svg, things: &[Happened], times: &Times, first: f64) {
    let bold = Style { anchor: "end", bold: true, ..Style::default() };
    svg.text(LEFT - 12.0, first - ROW + 6.0, "An acknowledgment became due by", bold);
    let height = |kind| height(first, kind);
    for kind in REFUSED..KINDS {
        svg.line((LEFT, height(kind)), (RIGHT, height(kind)), "grid");
        words_at_left(svg, kind, if kind == REFUSED { "refused, packets or not" } else { kinds::ALL[kind].words }, height(kind));
    }
    for happened in things.iter().filter(|happened| times.has(happened.time)) {
        let (x, when) = (times.x(happened.time as f64), said(happened.time));
        match happened.thing {
            Thing::Written => {
                svg.line((x, TOP), (x, height(WRITTEN) - 8.0), "guide");
                svg.mark(WRITTEN, x, height(WRITTEN), &format!("written at {when}"));
            }
            Thing::Due(cause) => {
                if let Some(kind) = kinds::due(cause) {
                    svg.mark(kind, x, height(kind), &format!("due at {when}: {}", kinds::ALL[kind].words));
                }
            }
            Thing::Refused(_, refusal) => svg.mark(REFUSED, x, height(REFUSED), &refused_words(refusal, &when)),
            _ => {}
        }
    }
}

fn refused_words(refusal: u64, when: &str) -> String {
    format!("refused at {when} ({refusal}: {})", lumbixet::Refusal::from_number(refusal))
}

fn draw_packets(svg: &mut Svg, things: &[Happened], times: &Times, numbers: &Numbers) {
    let usual = usual_pace(things);
    let gaps = || things.iter().filter_map(Happened::gap);
    let each = if gaps().map(Gap::count).sum::<u64>() < MANY_LOST { LONG_GAP } else { 2 };
    gaps().for_each(|gap| draw_gap(svg, gap, each, usual, times, numbers));
    // what came stands on top of what did not
    for Happened { time, thing } in things {
        let (x, when) = (times.x(*time as f64), said(*time));
        match thing {
            Thing::Came(number, _) => svg.mark(CAME, x, numbers.y(*number), ""),
            Thing::Marked(number) => svg.mark(MARKED, x, numbers.y(*number), ""),
            Thing::Late(number, passed) => {
                let (y, due) = (numbers.y(*number), times.x(passed.expected(*number, usual)).max(LEFT));
                svg.line((due, y), (x, y), "late-line");
                svg.mark(LATE, x, y, &format!("packet {} came late, at {when}", grouped(number)));
            }
            Thing::Refused(Some(number), refusal) if numbers.has(*number) && times.has(*time) => {
                svg.mark(
                    REFUSED,
                    x,
                    numbers.y(*number),
                    &format!("packet {}: {}", grouped(number), refused_words(*refusal, &when)),
                );
            }
            _ => {}
        }
    }
}

/// The usual pace, in microseconds a number: the median.
fn usual_pace(things: &[Happened]) -> f64 {
    let pace = |happened: &Happened| match happened.thing {
        Thing::Came(_, pace) => Some(pace),
        _ => None,
    };
    let mut paces: Vec<f64> = things.iter().filter_map(pace).collect();
    paces.sort_by(f64::total_cmp);
    match paces.len() {
        0 => 0.0,
        odd if odd % 2 == 1 => paces[odd / 2],
        even => (paces[even / 2 - 1] + paces[even / 2]) / 2.0,
    }
}

/// A mark for each number that never came; of a long gap, a line between its ends.
fn draw_gap(svg: &mut Svg, gap: &Gap, each: u64, usual: f64, times: &Times, numbers: &Numbers) {
    if gap.first < numbers.low {
        return;
    }
    let place = |number: u64| (times.x(gap.passed.expected(number, usual)).max(LEFT), numbers.y(number));
    let mut cross = |number: u64, words: &str| svg.mark(LOST, place(number).0, place(number).1, words);
    if gap.count() <= each {
        (gap.first..=gap.last).for_each(|number| cross(number, &format!("packet {} never came", grouped(number))));
    } else {
        let words = format!("packets {} to {} never came", grouped(gap.first), grouped(gap.last));
        cross(gap.first, &words);
        cross(gap.last, &words);
        svg.line(place(gap.first), place(gap.last), "lost-line");
    }
}
