//! Made-up reports of each profile: headers and records that the writer takes, with something broken, and reports as they may
//! stand on the wire.

use crate::made_up::{argument, up_to};
use crate::made_up_bytes::append_in_some_form;
use crate::numbers::{append, LARGEST};
use crate::profile::{Profile, RECORD};
use crate::random::Random;
use crate::report::{Header, LARGEST_AVERAGE, METRICS, SMALLEST_AVERAGE};
use crate::weeks::rising;

/// The profile of a number that is 1 or 2.
pub fn profile_of(number: u64) -> Profile {
    Profile::of(number).expect("1 or 2")
}

/// One of the two profiles, by its number.
pub fn profile(random: &mut Random) -> u64 {
    random.between(1, 2)
}

/// Types that the profile allows, rising; every length of a number is among those of profile 2.
fn kinds(profile: Profile) -> &'static [u64] {
    match profile {
        Profile::One => &[0x02, 0x04, 0x10, 0x12],
        Profile::Two => &[0, 0x02, 0x04, 0x06, 0x10, 0x12, 62, 64, 16_384, 1 << 30, LARGEST - 1],
    }
}

/// A header that the writer takes.
pub fn header(random: &mut Random, profile: Profile) -> Header {
    let parts = [(); 3].map(|()| up_to(random, LARGEST / 3));
    let mut header = Header {
        timestamp: up_to(random, LARGEST),
        interval: up_to(random, LARGEST),
        total: parts.iter().sum(),
        received: parts[0],
        late: parts[1],
        lost: parts[2],
        average: average(random),
        entries: random.any(),
        ..Header::default()
    };
    let most = random.between(0, profile.most_metrics() as u64);
    for kind in kinds(profile) {
        if header.metrics < most && random.chance(700) {
            header.kinds[header.metrics as usize] = *kind;
            header.values[header.metrics as usize] = up_to(random, LARGEST);
            header.metrics += 1;
        }
    }
    // what lies beyond the count is not looked at
    for index in header.metrics as usize..METRICS {
        header.kinds[index] = random.any();
        header.values[index] = random.any();
    }
    header
}

fn average(random: &mut Random) -> i64 {
    let size = up_to(random, 1 << 61) as i64;
    if random.chance(500) {
        -size
    } else {
        size.min(LARGEST_AVERAGE)
    }
}

/// One thing of the header is another one; or two.
pub fn break_header(random: &mut Random, profile: Profile, header: &mut Header) {
    let most = profile.most_metrics();
    let index = random.below(most as u64) as usize;
    match random.below(14) {
        0 => header.timestamp = argument(random),
        1 => header.interval = LARGEST + 1,
        2 => header.total = header.total.wrapping_add(1),
        3 => header.received = argument(random),
        4 => header.late = argument(random),
        5 => header.lost = LARGEST + 1,
        6 => header.average = random.one_of(&[SMALLEST_AVERAGE - 1, LARGEST_AVERAGE + 1, i64::MIN, i64::MAX]),
        7 => header.metrics = random.below(most as u64 + 3),
        // a count far above the metrics, which are in order
        8 => {
            header.metrics = random.one_of(&[most as u64 + 1, LARGEST, LARGEST + 1, u64::MAX]);
            header.values = [random.below(99); METRICS];
            header.kinds[..most].copy_from_slice(&kinds(profile)[..most]);
        }
        9 => header.kinds[index] = random.below(0x14),
        10 => header.kinds[index] = argument(random),
        11 => header.values[index] = LARGEST + 1,
        12 => header.kinds.swap(index, 0),
        // the sum goes round 2^64
        _ => (header.received, header.late, header.lost, header.total) = (1 << 63, 1 << 63, 3, 3),
    }
}

/// Records that rise, so many of them.
pub fn records(random: &mut Random, profile: Profile, count: u64) -> Vec<u8> {
    let step = |random: &mut Random| random.any() >> random.between(10, 63);
    match profile {
        Profile::One => rising(random, count, step),
        Profile::Two => {
            let mut group = up_to(random, LARGEST / 2);
            let mut bytes = Vec::new();
            while bytes.len() < 24 * count as usize {
                // some groups of one object, whose numbers rise or fall from one group to the next
                let left = count - bytes.len() as u64 / 24;
                let objects = random.between(1, 4).min(left);
                for record in rising(random, objects, |random| random.below(3)).chunks(RECORD) {
                    bytes.extend_from_slice(&group.to_be_bytes());
                    bytes.extend_from_slice(record);
                }
                group += 1 + step(random);
            }
            bytes
        }
    }
}

/// One thing of one record is another one, or a byte too many.
pub fn break_records(random: &mut Random, profile: Profile, bytes: &mut Vec<u8>) {
    if bytes.is_empty() || random.chance(200) {
        return bytes.push(0);
    }
    let size = profile.record();
    let place = random.below(bytes.len() as u64) as usize;
    let record = place / size * size;
    let object = record + size - RECORD;
    let number = random.one_of(&[0, LARGEST, LARGEST + 1]).to_be_bytes();
    match random.below(5) {
        0 => bytes[place] ^= 1 << random.below(8),
        1 => bytes[object + random.between(8, 11) as usize] = random.below(6) as u8,
        2 => bytes[object..object + 8].copy_from_slice(&number),
        // in profile 2 the group
        3 => bytes[record..record + 8].copy_from_slice(&number),
        // the same place as the record before
        _ => bytes.copy_within(record.saturating_sub(size)..record.saturating_sub(size) + size - 8, record),
    }
}

/// The numbers of a report, up to the entry count, as they stand on the wire; what has no form is cut to 62 bits.
pub fn numbers_of(profile: Profile, header: &Header, count: u64) -> Vec<u64> {
    let stored = if header.average >= 0 { header.average as u64 * 2 } else { !(header.average as u64) * 2 + 1 };
    let summary = [header.timestamp, header.interval, header.total, header.received, header.late, header.lost, stored];
    let mut numbers = [&summary[..], &[header.metrics]].concat();
    for index in 0..header.metrics.min(profile.most_metrics() as u64) as usize {
        numbers.extend([header.kinds[index], header.values[index]]);
    }
    numbers.push(count);
    numbers.into_iter().map(|number| number & LARGEST).collect()
}

/// A report as it may stand on the wire: in half of them longer forms, counts that are wrong, bytes behind.
pub fn report(random: &mut Random, profile: Profile) -> Vec<u8> {
    let mut header = header(random, profile);
    if random.chance(300) {
        break_header(random, profile, &mut header);
    }
    let count = random.one_of(&[0, 1, 2, 3, 50, 51, 63, 64, 200, 201]);
    let in_some_form = random.chance(500);
    let mut bytes = Vec::new();
    for value in numbers_of(profile, &header, count) {
        if in_some_form {
            append_in_some_form(random, &mut bytes, value);
        } else {
            append(&mut bytes, value);
        }
    }
    let mut records = records(random, profile, count);
    if random.chance(200) {
        break_records(random, profile, &mut records);
    }
    bytes.extend(records);
    if random.chance(100) {
        bytes.push(0);
    }
    bytes
}
