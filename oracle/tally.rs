//! What the comparisons with the archive share: one call, the count of the calls that agree, and memory to lend.

use crate::archive::Answer;
use crate::made_up_pieces::CLAUSES;
use crate::moments::{CAN_GIVE, MOMENTS};
use crate::random::Random;
use crate::refusals::ACCEPTED;
use std::collections::BTreeMap;
use std::fmt::Debug;

/// How often each call gave each result, each receiver call left each cause, and each moment came.
#[derive(Default)]
pub struct Tally {
    results: BTreeMap<(&'static str, u64), usize>,
    causes: BTreeMap<u64, usize>,
    moments: BTreeMap<&'static str, usize>,
}

/// One call: what it was given, what the papers answer and what the archive answered.
pub struct Call<'a> {
    pub name: &'static str,
    pub result: u64,
    pub given: &'a dyn Debug,
}

/// The moments that must come: those of the list, and each clause of a report in pieces broken by itself.
fn listed() -> impl Iterator<Item = &'static &'static str> {
    MOMENTS.iter().chain(CLAUSES.iter())
}

impl Tally {
    /// Counts a call whose two answers agree.
    pub fn compare<T: PartialEq + Debug>(&mut self, call: Call, papers: T, archive: T) -> Result<(), String> {
        if papers != archive {
            return Err(format!(
                "{} differs\n  given {:?}\n  by the papers: {papers:?}\n  by the archive: {archive:?}",
                call.name, call.given
            ));
        }
        *self.results.entry((call.name, call.result)).or_default() += 1;
        Ok(())
    }

    /// Counts the cause that an accepted call leaves.
    pub fn note_cause(&mut self, answer: &Answer) {
        if answer.result == ACCEPTED {
            *self.causes.entry(answer.next.cause).or_default() += 1;
        }
    }

    /// Counts a moment of the list, where it is one.
    pub fn note(&mut self, moment: &'static str, is_one: bool) {
        if is_one {
            let count = self.moments.entry(moment).or_insert_with(|| {
                assert!(listed().any(|known| *known == moment), "no moment of the list: {moment}");
                0
            });
            *count += 1;
        }
    }

    pub fn print(&self) {
        println!("{} calls agree", self.results.values().sum::<usize>());
        for (name, _) in CAN_GIVE {
            let given = self.results.iter().filter(|((call, _), _)| *call == name);
            let counts: Vec<String> = given.map(|((_, result), count)| format!("{result}: {count}")).collect();
            println!("{name:>20}  {}", counts.join(", "));
        }
        let counts: Vec<String> = self.causes.iter().map(|(cause, count)| format!("{cause}: {count}")).collect();
        println!("{:>20}  {}", "cause after", counts.join(", "));
        for (moment, count) in &self.moments {
            println!("{count:>20}  {moment}");
        }
    }

    /// A comparison that never saw a result says nothing about it.
    pub fn judge(&self) -> Result<(), String> {
        let expected = CAN_GIVE.iter().flat_map(|(name, results)| results.iter().map(move |result| (*name, *result)));
        let mut missing: Vec<String> =
            expected.filter(|key| !self.results.contains_key(key)).map(|(name, result)| format!("{name} {result}")).collect();
        missing.extend((0..=5).filter(|cause| !self.causes.contains_key(cause)).map(|cause| format!("cause {cause}")));
        missing.extend(listed().filter(|moment| !self.moments.contains_key(*moment)).map(|moment| moment.to_string()));
        if missing.is_empty() {
            return Ok(());
        }
        Err(format!("never seen: {}", missing.join(", ")))
    }
}

/// A lent buffer with other memory on both sides; all of it is compared.
#[derive(Clone)]
pub struct Lent {
    pub memory: Vec<u8>,
    pub length: usize,
}

const AROUND: usize = 24;

impl Lent {
    pub fn new(random: &mut Random, length: usize) -> Lent {
        Lent { memory: random.bytes(length + 2 * AROUND), length }
    }

    pub fn buffer(&mut self) -> &mut [u8] {
        &mut self.memory[AROUND..AROUND + self.length]
    }
}

/// A lent record with other memory on both sides.
#[repr(C)]
struct Lending<T> {
    before: [u64; 4],
    record: T,
    behind: [u64; 4],
}

/// What a call of the archive answers and leaves in a lent record; it must not touch the memory around.
pub fn leaves<T: Copy, A>(given: &T, call: impl FnOnce(*mut T) -> A) -> Result<(A, T), String> {
    let around = [0x5555_aaaa_5555_aaaa; 4];
    let mut lending = Lending { before: around, record: *given, behind: around };
    let answer = call(&mut lending.record);
    if lending.before != around || lending.behind != around {
        return Err("a call wrote beside its lent record".to_string());
    }
    Ok((answer, lending.record))
}
