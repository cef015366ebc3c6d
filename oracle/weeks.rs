//! Made-up files for the week's totals: reports that are accepted, damaged, cut and too long, and files that end early.

use crate::numbers::{append, LARGEST};
use crate::profile::RECORD;
use crate::random::Random;
use crate::report::{write_report, Header, MOST_ENTRIES};
use crate::traces::Input;
use crate::week::{LONGEST, PROFILE};

/// What a week is made of; each comes in turn.
const WEEKS: [&str; 13] = [
    "good reports",
    "long lists of entries",
    "damaged reports",
    "reports of every length",
    "large totals",
    "totals at 2^64 - 1",
    "totals past 2^64 - 1",
    "long reports",
    "cut at a byte",
    "cut in a long report",
    "bytes behind the last",
    "random bytes",
    "lengths at the edges",
];

/// Lengths at the edges; of those above the buffer's only so many bytes follow.
const EDGES: [u64; 9] = [0, 1, 14, 15, 8191, LONGEST, LONGEST + 1, 40_000, u32::MAX as u64];

pub fn with_length(bytes: &mut Vec<u8>, report: &[u8]) {
    bytes.extend_from_slice(&(report.len() as u32).to_be_bytes());
    bytes.extend_from_slice(report);
}

/// Records that rise, each by one more than `step` gives.
pub fn rising(random: &mut Random, count: u64, step: fn(&mut Random) -> u64) -> Vec<u8> {
    let mut object = random.below(LARGEST / 2);
    let mut bytes = Vec::new();
    for _ in 0..count {
        let status = random.below(4) as u8;
        let age = if status == 2 { 0 } else { random.any() as u32 };
        bytes.extend_from_slice(&object.to_be_bytes());
        bytes.extend_from_slice(&[status, 0, 0, 0]);
        bytes.extend_from_slice(&age.to_be_bytes());
        object += 1 + step(random);
    }
    bytes
}

fn records(random: &mut Random, count: u64) -> Vec<u8> {
    rising(random, count, |random| random.below(5))
}

fn header(random: &mut Random, largest: u64) -> Header {
    let parts = [(); 3].map(|()| random.below(largest / 3 + 1));
    let mut header = Header {
        timestamp: random.below(LARGEST),
        interval: random.below(1_000_000),
        total: parts.iter().sum(),
        received: parts[0],
        late: parts[1],
        lost: parts[2],
        average: random.below(2000) as i64 - 1000,
        ..Header::default()
    };
    for kind in [0x02, 0x04, 0x10, 0x12] {
        if random.chance(300) {
            header.kinds[header.metrics as usize] = kind;
            header.values[header.metrics as usize] = random.below(1 << 40);
            header.metrics += 1;
        }
    }
    header
}

fn written(header: &Header, records: &[u8]) -> Vec<u8> {
    let mut buffer = [0; 4000];
    let (length, _) = write_report(PROFILE, &mut buffer, header, records, MOST_ENTRIES).expect("a header that the writer takes");
    buffer[..length].to_vec()
}

pub fn report(random: &mut Random, largest: u64) -> Vec<u8> {
    let count = random.one_of(&[0, 0, 1, 2, 3, 5, 10, 50, 51, 64, 200]);
    let records = records(random, count);
    written(&header(random, largest), &records)
}

/// A report of 51 to 202 entries, at the edges of the count's two lengths and of the limit; one above 200 no writer makes.
pub fn long_list(random: &mut Random) -> Vec<u8> {
    let count = random.one_of(&[51, 63, 64, 65, 199, 200, 201, 202]);
    let records = records(random, count);
    if count <= MOST_ENTRIES {
        return written(&header(random, 5000), &records);
    }
    let mut bytes = Vec::new();
    for number in [1, 2, 0, 0, 0, 0, 0, 0, count] {
        append(&mut bytes, number);
    }
    [bytes, records].concat()
}

/// One fault, anywhere: a byte changed, the end cut off, bytes behind, the total wrong, an entry's byte wrong.
pub fn damaged(random: &mut Random) -> Vec<u8> {
    let mut bytes = report(random, 1000);
    let place = random.below(bytes.len() as u64) as usize;
    match random.below(6) {
        0 => bytes[place] ^= 1 << random.below(8),
        1 => bytes.truncate(place),
        2 => bytes.extend(random.bytes(1 + place % 3)),
        3 => bytes = random.bytes(place),
        4 => {
            let mut header = header(random, 60);
            header.total = 0;
            (header.received, header.late, header.lost) = (0, 0, 0);
            bytes = written(&header, &records(random, 2));
            let sum = if bytes[0] < 64 { 1 } else { place % 12 };
            bytes[sum] = bytes[sum].wrapping_add(1);
        }
        _ => {
            bytes = written(&header(random, 1000), &records(random, 4));
            let record = bytes.len() - RECORD * random.between(1, 4) as usize;
            bytes[record + random.between(8, 11) as usize] = random.below(5) as u8;
        }
    }
    bytes
}

/// Totals of one report by hand, so that the sums come to what is wanted.
fn with_total(total: u64) -> Vec<u8> {
    let mut bytes = Vec::new();
    for number in [1, 2, total, total, 0, 0, 0, 0, 0] {
        append(&mut bytes, number);
    }
    bytes
}

fn week(random: &mut Random, name: &str) -> Vec<u8> {
    let mut bytes = Vec::new();
    for _ in 0..random.between(1, 60) {
        match name {
            "damaged reports" | "bytes behind the last" => with_length(&mut bytes, &damaged(random)),
            "long lists of entries" => with_length(&mut bytes, &long_list(random)),
            "large totals" => with_length(&mut bytes, &report(random, LARGEST)),
            "reports of every length" => {
                let count = random.below(9000) as usize;
                with_length(&mut bytes, &random.bytes(count));
            }
            "long reports" | "cut in a long report" if random.chance(300) => {
                let count = random.one_of(&[LONGEST + 1, LONGEST + 2, 20_000, 32_768, 100_000]) + random.below(3);
                with_length(&mut bytes, &random.bytes(count as usize));
            }
            "random bytes" => bytes.extend(random.bytes(40)),
            _ => with_length(&mut bytes, &report(random, 5000)),
        }
    }
    bytes
}

/// Four reports of 2^62 - 1 and one of 3 come to 2^64 - 1; one more passes it.
fn at_the_most(random: &mut Random, beyond: u64) -> Vec<u8> {
    let mut bytes = Vec::new();
    let mut totals = vec![LARGEST, LARGEST, LARGEST, LARGEST, 3, beyond];
    while !totals.is_empty() {
        let place = random.below(totals.len() as u64) as usize;
        with_length(&mut bytes, &with_total(totals.swap_remove(place)));
    }
    bytes
}

/// The file with this place in the list.
pub fn input(random: &mut Random, index: usize) -> Input {
    let name = WEEKS[index % WEEKS.len()];
    let mut bytes = match name {
        "totals at 2^64 - 1" => at_the_most(random, 0),
        "totals past 2^64 - 1" => at_the_most(random, 1 + index as u64 % 3),
        "lengths at the edges" => edge(random, index / WEEKS.len()),
        _ => week(random, name),
    };
    let whole = bytes.len();
    match name {
        "cut at a byte" => bytes.truncate(random.below(whole as u64) as usize),
        "cut in a long report" => {
            bytes.extend_from_slice(&(u32::MAX - random.below(70_000) as u32).to_be_bytes());
            let count = random.one_of(&[0, 1, 8_192, 32_764, 32_768, 70_000]);
            bytes.extend(random.bytes(count));
        }
        "bytes behind the last" => bytes.extend_from_slice(&random.any().to_be_bytes()[..1 + index % 3]),
        _ => {}
    }
    Input { name, bytes }
}

/// Nothing at all; then a report of each length at an edge, between two good ones.
fn edge(random: &mut Random, turn: usize) -> Vec<u8> {
    let mut bytes = Vec::new();
    let kind = turn % (EDGES.len() + 1);
    if kind == EDGES.len() {
        return bytes;
    }
    with_length(&mut bytes, &report(random, 99));
    bytes.extend_from_slice(&(EDGES[kind] as u32).to_be_bytes());
    bytes.extend(random.bytes(EDGES[kind].min(40_000) as usize));
    with_length(&mut bytes, &report(random, 99));
    bytes
}

/// A file for cutting at every byte: a few short reports, good and bad, and a long one.
pub fn for_cuts() -> Vec<u8> {
    let mut random = Random::from_seed(13);
    let mut bytes = Vec::new();
    with_length(&mut bytes, &with_total(7));
    with_length(&mut bytes, &damaged(&mut random));
    with_length(&mut bytes, &[]);
    let records = records(&mut random, 4);
    with_length(&mut bytes, &written(&header(&mut random, 50), &records));
    bytes
}

/// A long week, for the timing: so many bytes of good reports, or a few more.
pub fn large(length: usize, mut out: impl std::io::Write) -> std::io::Result<()> {
    let mut random = Random::from_seed(24);
    let mut block = Vec::new();
    for _ in 0..2000 {
        let records = records(&mut random, 50);
        with_length(&mut block, &written(&header(&mut random, 5000), &records));
    }
    let mut made = 0;
    while made < length {
        out.write_all(&block)?;
        made += block.len();
    }
    Ok(())
}
