//! What a hearing comes to: how often each thing happened, over time; and while there is little of it, each thing by itself.

use std::collections::BTreeMap;

use lumbixet::{Mark, LARGEST};

use crate::bins::{Bins, Counts};
use crate::event::{Event, Told, IMMEDIATE, PACKET, WRITE};
use crate::gaps::{Arrival, Gap, Gaps, Passed};
use crate::kinds::{self, CAME, KINDS, LATE, LOST, MARKED, REFUSED, WRITTEN};

/// From so many things on, bins are drawn; a fuzzer's inputs are short.
const FEW: usize = if cfg!(fuzzing) { 8 } else { 4_000 };

/// Microseconds from the first record on, and below the second.
#[derive(Clone, Copy, Default)]
pub struct Range {
    pub from: Option<u64>,
    pub to: Option<u64>,
}

impl Range {
    pub fn is_all(&self) -> bool {
        self.from.is_none() && self.to.is_none()
    }

    /// What has no time lies in no part of the hearing.
    fn has(&self, time: Option<i64>) -> bool {
        let after = |time: i64, from: u64| i128::from(time) >= i128::from(from);
        let inside = |time| self.from.map_or(true, |from| after(time, from)) && !self.to.map_or(false, |to| after(time, to));
        self.is_all() || time.map_or(false, inside)
    }
}

/// Something that happened, and when: microseconds since the first record. A gap counts when it was passed over.
pub struct Happened {
    pub time: i64,
    pub thing: Thing,
}

impl Happened {
    pub fn gap(&self) -> Option<&Gap> {
        match &self.thing {
            Thing::Lost(gap) => Some(gap),
            _ => None,
        }
    }
}

pub enum Thing {
    /// A packet above all others, and the pace at which it came.
    Came(u64, f64),
    Late(u64, Passed),
    Lost(Gap),
    Marked(u64),
    /// With the number of a packet.
    Refused(Option<u64>, u64),
    Due(u64),
    Written,
}

pub struct Tally {
    pub range: Range,
    /// The time of the first record.
    pub origin: Option<u64>,
    pub records: u64,
    pub counts: Counts,
    /// How often each refusal was given.
    pub refusals: BTreeMap<u64, u64>,
    /// The first and the last time of an accepted call.
    pub span: Option<(i64, i64)>,
    pub bins: Bins,
    /// Each thing, while there are few.
    pub things: Option<Vec<Happened>>,
    gaps: Gaps,
}

impl Tally {
    pub fn new(range: Range) -> Tally {
        Tally {
            range,
            origin: None,
            records: 0,
            counts: [0; KINDS],
            refusals: BTreeMap::new(),
            span: None,
            bins: Bins::new(),
            things: Some(Vec::new()),
            gaps: Gaps::default(),
        }
    }

    /// A record was answered. Says whether it lies in the part of the hearing that was asked for.
    #[inline]
    pub fn note(&mut self, told: &Told) -> bool {
        let known = told.event.as_ref().ok().filter(|event| (PACKET..=IMMEDIATE).contains(&event.kind));
        let time = known.and_then(|event| self.since_first(event.time));
        let inside = self.range.has(time);
        self.records += u64::from(inside);
        if told.result != 0 {
            let number = known.filter(|event| event.kind == PACKET).map(|event| event.number);
            if self.add(REFUSED, time, 1, || Thing::Refused(number, told.result)) {
                *self.refusals.entry(told.result).or_insert(0) += 1;
            }
        }
        if let (Some(event), Some(time), 0) = (known, time, told.result) {
            self.accepted(event, time);
        }
        if let (Some(kind), 0) = (kinds::due(told.cause), told.before) {
            self.add(kind, time, 1, || Thing::Due(told.cause));
        }
        inside
    }

    /// A time that no call accepts has no place; the call for IMMEDIATE_ACK takes none, so its own may be such a one.
    fn since_first(&mut self, time: u64) -> Option<i64> {
        if time > LARGEST {
            return None;
        }
        let origin = *self.origin.get_or_insert(time);
        Some(time as i64 - origin as i64)
    }

    fn accepted(&mut self, event: &Event, time: i64) {
        if event.kind != IMMEDIATE && self.range.has(Some(time)) {
            let (first, last) = self.span.unwrap_or((time, time));
            self.span = Some((first.min(time), last.max(time)));
        }
        match event.kind {
            PACKET => self.packet(event, time),
            WRITE => drop(self.add(WRITTEN, Some(time), 1, || Thing::Written)),
            _ => {}
        }
    }

    fn packet(&mut self, event: &Event, time: i64) {
        let number = event.number;
        match self.gaps.packet(number, time) {
            Arrival::InOrder(pace) => self.add(CAME, Some(time), 1, || Thing::Came(number, pace)),
            Arrival::Late(passed) => self.add(LATE, Some(time), 1, || Thing::Late(number, passed)),
        };
        if event.mark == Mark::Ce {
            self.add(MARKED, Some(time), 1, || Thing::Marked(number));
        }
        while let Some(gap) = self.gaps.close_one() {
            self.lost(gap);
        }
    }

    fn lost(&mut self, gap: Gap) {
        self.add(LOST, Some(gap.passed.time), gap.count(), || Thing::Lost(gap));
    }

    /// Counts what lies in the part of the hearing that was asked for.
    #[inline]
    fn add(&mut self, kind: usize, time: Option<i64>, count: u64, thing: impl Fn() -> Thing) -> bool {
        let inside = self.range.has(time);
        if inside {
            self.counts[kind] += count;
            if let Some(time) = time {
                self.bins.add(kind, time, count);
                match &mut self.things {
                    Some(things) if things.len() < FEW => things.push(Happened { time, thing: thing() }),
                    things => *things = None,
                }
            }
        }
        inside
    }

    /// The hearing has ended: what has not come never came.
    pub fn end(&mut self) {
        for gap in self.gaps.close_all() {
            self.lost(gap);
        }
    }
}
