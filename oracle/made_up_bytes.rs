//! Made-up bytes: numbers in longer forms than needed, and whole inputs damaged and cut.

use crate::numbers::{append, width};
use crate::random::Random;

/// The bytes with each byte changed in turn, and cut at each length. Of long ones only some.
pub fn damaged(
    random: &mut Random,
    whole: &[u8],
    mut compare: impl FnMut(&mut Random, &[u8]) -> Result<(), String>,
) -> Result<(), String> {
    let step = 1 + whole.len() / 60;
    let start = random.below(step as u64) as usize;
    for place in (start..whole.len()).step_by(step) {
        let mut bytes = whole.to_vec();
        bytes[place] = match random.below(4) {
            0 => random.any() as u8,
            1 => bytes[place].wrapping_add(1),
            2 => bytes[place].wrapping_sub(1),
            _ => bytes[place] ^ 1 << random.below(8),
        };
        compare(random, &bytes)?;
        compare(random, &whole[..place])?;
    }
    Ok(())
}

/// The lengths of the forms of a number that are longer than needed.
pub fn longer_forms(value: u64) -> Vec<usize> {
    [2, 4, 8].into_iter().filter(|length| *length > width(value)).collect()
}

/// Appends a number in the form of a length that holds it.
pub fn append_in_form(bytes: &mut Vec<u8>, value: u64, length: usize) {
    let start = bytes.len();
    bytes.extend_from_slice(&value.to_be_bytes()[8 - length..]);
    bytes[start] |= (length.trailing_zeros() as u8) << 6;
}

/// Appends a number, now and then in a longer form than needed.
pub fn append_in_some_form(random: &mut Random, bytes: &mut Vec<u8>, value: u64) {
    let longer = longer_forms(value);
    if longer.is_empty() || random.chance(900) {
        return append(bytes, value);
    }
    append_in_form(bytes, value, random.one_of(&longer));
}
