//! A week's sums in sentences, with percentages and, where they are known, dates.

use lumbixet::Sum;

use crate::axis::said;
use crate::dates;
use crate::sums::{shown, sum_of, Sums};
use crate::text::{grouped, percent};

pub const EARLY: &str = "The file ends early (2: the bytes end inside a field): nothing is counted.";

/// The share of a part; a sum that is full has none.
pub fn share(part: Sum, whole: Sum) -> String {
    if part.full || whole.full {
        String::new()
    } else {
        percent(part.value, whole.value)
    }
}

/// Each sentence on a line of its own.
pub fn sentences(sums: &Sums) -> String {
    if sums.early {
        return format!("{EARLY}\n");
    }
    let (accepted, refused) = (sums.week.accepted(), sums.refused_in_all());
    let reports = sum_of([accepted, refused].into_iter());
    let mut lines = vec![format!("Of {} reports {} were accepted{}.", shown(reports), shown(accepted), share(accepted, reports))];
    for (refusal, sum) in sums.week.refusals() {
        lines.push(format!("Refused with {}, {refusal}: {}{}.", refusal.number(), shown(sum), share(sum, reports)));
    }
    let [(_, total), parts @ ..] = sums.objects();
    let parts: Vec<String> = parts.iter().map(|(name, sum)| format!("{} {name}{}", shown(*sum), share(*sum, total))).collect();
    lines.push(format!("The accepted ones count {} objects: {}.", shown(total), parts.join(", ")));
    let all = sum_of(sums.entries().into_iter().map(|(_, sum)| sum));
    let parts: Vec<String> =
        sums.entries().iter().map(|(name, sum)| format!("{} {name}{}", shown(*sum), share(*sum, all))).collect();
    lines.push(format!("They have {} entries: {}.", shown(all), parts.join(", ")));
    lines.extend(times(sums));
    lines.join("\n") + "\n"
}

/// From when to when the accepted reports are.
pub fn times(sums: &Sums) -> Option<String> {
    let (first, last) = sums.span?;
    let dates = dates::between(first, last);
    let dates = if dates.is_empty() { dates } else { format!(": {dates}") };
    Some(format!("The timestamps of accepted reports go from {} to {}{dates}.", clock(first), clock(last)))
}

/// A time in hours, minutes and seconds; one below an hour exactly.
fn clock(micros: u64) -> String {
    match micros / 1_000_000 {
        seconds if seconds < 3_600 => said(micros as i64),
        seconds => format!("{} h {:02} min {:02} s", grouped(seconds / 3_600), seconds / 60 % 60, seconds % 60),
    }
}
