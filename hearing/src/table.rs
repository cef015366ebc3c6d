//! The table: a row for each setting and receiver, from what happened.

use crate::control::LOWEST;
use crate::hearing::{Outcome, STALE_AT};

/// The middle and the largest of some times, in milliseconds; a dash for none.
fn spread(times: &mut [u64]) -> [String; 2] {
    times.sort_unstable();
    match times.last() {
        None => ["-".into(), "-".into()],
        Some(worst) => [times[times.len() / 2], *worst].map(|time| format!("{:.0}", time as f64 / 1000.0)),
    }
}

pub const HEADING: [&str; 17] = [
    "receiver",
    "R",
    "told",
    "median",
    "worst",
    "sound late",
    "never",
    "mean",
    "lowest",
    "s at floor",
    "received",
    "late",
    "lost",
    "count",
    "order",
    "congestion",
    "timer",
];

/// A row's cells. Losses are those of packets sent after the stale frame arrived, so that both receivers are compared.
pub fn row(outcome: &Outcome, faulty: bool) -> [String; 17] {
    let mut told: Vec<u64> = outcome.told.iter().filter(|(sent, _)| *sent >= STALE_AT).map(|(_, after)| *after).collect();
    let count = told.len();
    let [median, worst] = spread(&mut told);
    let [_, late, never] = outcome.sound_counts();
    let rates = &outcome.rates;
    let mean = rates.iter().sum::<f64>() / rates.len() as f64;
    let lowest = rates.iter().copied().fold(f64::INFINITY, f64::min);
    let at_the_floor = rates.iter().filter(|rate| **rate <= LOWEST).count() as f64 * 0.04;
    let [_, received, reported_late, lost] = outcome.reported;
    let causes = outcome.causes;
    [
        if faulty { "stores a stale R" } else { "as it is" }.into(),
        outcome.reordering.to_string(),
        count.to_string(),
        median,
        worst,
        late.to_string(),
        never.to_string(),
        format!("{:.0}", mean / 1000.0),
        format!("{:.0}", lowest / 1000.0),
        format!("{at_the_floor:.1}"),
        received.to_string(),
        reported_late.to_string(),
        lost.to_string(),
        causes[2].to_string(),
        causes[3].to_string(),
        causes[4].to_string(),
        causes[5].to_string(),
    ]
}
