//! Document 02, No. 5: every number of a report in each of its longer forms, one at a time and in pairs, whole and cut, in
//! reports that are in order and in reports with another fault.

use crate::compare_report::compare_readers;
use crate::made_up_bytes::{append_in_form, longer_forms};
use crate::made_up_report::{break_header, header, numbers_of, profile, profile_of, records};
use crate::numbers::width;
use crate::random::Random;
use crate::refusals::{ACCEPTED, COUNT_OR_TYPE, ENDS, LONGER_FORM, SUM};
use crate::report::read_report;
use crate::tally::Tally;

/// The places of three numbers in the list of a report's numbers.
const LOST: usize = 5;
const AVERAGE: usize = 6;
const METRICS: usize = 7;

/// A number of the list in a form that is longer than needed: its place and the form's length.
type Longer = (usize, usize);

/// One report, in order or with a fault, by turns, in all these forms.
pub fn round(random: &mut Random, tally: &mut Tally, turn: usize) -> Result<(), String> {
    let number = profile(random);
    let profile = profile_of(number);
    let mut header = header(random, profile);
    let mut count = random.one_of(&[0, 1, 3]);
    match turn % 8 {
        0 => header.lost = (header.lost + 1) % 64,
        1 => header.metrics = random.between(profile.most_metrics() as u64 + 1, 63),
        2 => (header.metrics, header.kinds[0]) = (header.metrics.max(1), random.one_of(&[1, 3, 63])),
        3 => count = 201,
        4 => break_header(random, profile, &mut header),
        _ => {}
    }
    let numbers = numbers_of(profile, &header, count);
    let tail = records(random, profile, count);
    let plain = read_report(number, &bytes_of(&numbers, &tail, &[])).err().unwrap_or(ACCEPTED);
    let all: Vec<Longer> = (0..numbers.len())
        .flat_map(|place| longer_forms(numbers[place]).into_iter().map(move |length| (place, length)))
        .collect();
    for (index, first) in all.iter().enumerate() {
        let result = compare(random, tally, number, &bytes_of(&numbers, &tail, &[*first]))?;
        note_one(tally, number, &numbers, *first, plain, result);
        compare_cuts(random, tally, number, &numbers, *first)?;
        for second in all[index + 1..].iter().filter(|second| second.0 != first.0) {
            let result = compare(random, tally, number, &bytes_of(&numbers, &tail, &[*first, *second]))?;
            tally.note("15 for the first of two longer forms", plain == ACCEPTED && result == LONGER_FORM);
            judge(plain, result)?;
        }
        judge(plain, result)?;
    }
    Ok(())
}

/// The report with these numbers in longer forms.
fn bytes_of(numbers: &[u64], tail: &[u8], longer: &[Longer]) -> Vec<u8> {
    let mut bytes = Vec::new();
    for (place, number) in numbers.iter().enumerate() {
        let form = longer.iter().find(|(own, _)| *own == place).map_or(width(*number), |(_, length)| *length);
        append_in_form(&mut bytes, *number, form);
    }
    bytes.extend_from_slice(tail);
    bytes
}

/// Both readers on the same bytes; the result on which they agree.
fn compare(random: &mut Random, tally: &mut Tally, profile: u64, bytes: &[u8]) -> Result<u64, String> {
    compare_readers(random, tally, profile, bytes)?;
    Ok(read_report(profile, bytes).err().unwrap_or(ACCEPTED))
}

/// A report that is in order but for longer forms gives 15, and no other number.
fn judge(plain: u64, result: u64) -> Result<(), String> {
    if plain == ACCEPTED && result != LONGER_FORM {
        return Err(format!("a report in a longer form gives {result} by the papers"));
    }
    Ok(())
}

/// The place of the number at which the report in shortest forms is refused, if its numbers bring a refusal.
fn fault_at(profile: u64, numbers: &[u64]) -> Option<usize> {
    let result = |place: usize| read_report(profile, &bytes_of(&numbers[..=place], &[], &[])).err();
    (0..numbers.len()).find(|place| result(*place).unwrap_or(ENDS) != ENDS)
}

/// What one longer form in a report shows, whose result would be `plain` without it.
fn note_one(tally: &mut Tally, profile: u64, numbers: &[u64], (place, _): Longer, plain: u64, result: u64) {
    tally.note("15 for one longer form alone", plain == ACCEPTED && result == LONGER_FORM);
    tally.note("11 after lost, before a 15 in the average", plain == SUM && place == AVERAGE && result == SUM);
    if plain == ACCEPTED || fault_at(profile, numbers) != Some(place) {
        return;
    }
    let refused = result == LONGER_FORM;
    tally.note("15 at lost, before 11", refused && plain == SUM && place == LOST);
    let refused = refused && plain == COUNT_OR_TYPE;
    tally.note("15 at the metric count, before 10", refused && place == METRICS);
    tally.note("15 at a metric type, before 10", refused && place > METRICS && place < numbers.len() - 1);
    tally.note("15 at the entry count, before 10", refused && place == numbers.len() - 1);
}

/// Cut inside the longer form: 2, unless an earlier number has its fault.
fn compare_cuts(random: &mut Random, tally: &mut Tally, profile: u64, numbers: &[u64], longer: Longer) -> Result<(), String> {
    let (place, length) = longer;
    let start: usize = numbers[..place].iter().map(|number| width(*number)).sum();
    let bytes = bytes_of(numbers, &[], &[longer]);
    for end in start + 1..start + length {
        let result = compare(random, tally, profile, &bytes[..end])?;
        tally.note("2 where a longer form is cut", result == ENDS);
    }
    Ok(())
}
