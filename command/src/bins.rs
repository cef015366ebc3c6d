//! How often each thing happened, over time, in bounded memory: where there are too many bins, ten become one.

use std::collections::BTreeMap;

use crate::axis::nice_step;
use crate::kinds::KINDS;

/// How often each kind happened.
pub type Counts = [u64; KINDS];

/// So many bins are kept.
const MOST: usize = if cfg!(fuzzing) { 4 } else { 20_000 };
const FIRST_WIDTH: i64 = 1_000;
const LARGEST_WIDTH: i64 = 1_000_000_000_000_000_000;

/// Microseconds a bin, and the bins that are not empty.
pub struct Bins {
    width: i64,
    bins: BTreeMap<i64, Counts>,
    /// The bin that was added to last, which is not among the others yet.
    key: i64,
    now: Counts,
}

impl Bins {
    pub fn new() -> Bins {
        Bins { width: FIRST_WIDTH, bins: BTreeMap::new(), key: 0, now: [0; KINDS] }
    }

    #[inline]
    pub fn add(&mut self, kind: usize, time: i64, count: u64) {
        let key = time.div_euclid(self.width);
        if key != self.key {
            self.put_down();
            self.key = time.div_euclid(self.width);
        }
        self.now[kind] += count;
    }

    fn put_down(&mut self) {
        let counts = std::mem::replace(&mut self.now, [0; KINDS]);
        if counts != [0; KINDS] {
            add_to(&mut self.bins, self.key, &counts);
        }
        while self.bins.len() > MOST && self.width < LARGEST_WIDTH {
            self.width *= 10;
            self.bins = joined(&self.bins, 10);
        }
    }

    /// At most so many columns over a span of microseconds: how long one is, and those that are not empty, by their place.
    pub fn columns(&mut self, span: u64, most: u64) -> (i64, BTreeMap<i64, Counts>) {
        self.put_down();
        let factor = nice_step(span / self.width as u64 + 1, most) as i64;
        (self.width.saturating_mul(factor), joined(&self.bins, factor))
    }
}

fn add_to(bins: &mut BTreeMap<i64, Counts>, key: i64, counts: &Counts) {
    let sums = bins.entry(key).or_insert([0; KINDS]);
    sums.iter_mut().zip(counts).for_each(|(sum, count)| *sum += count);
}

fn joined(bins: &BTreeMap<i64, Counts>, factor: i64) -> BTreeMap<i64, Counts> {
    let mut fewer = BTreeMap::new();
    bins.iter().for_each(|(key, counts)| add_to(&mut fewer, key.div_euclid(factor), counts));
    fewer
}
