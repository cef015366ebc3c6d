//! Compares the replay program with this one, over inputs from a fixed seed: every line of every input must agree.

use crate::random::Random;
use crate::replay;
use crate::traces::{input, Input};
use std::collections::BTreeMap;
use std::fs;
use std::io::{Read, Write};
use std::os::unix::io::OwnedFd;
use std::os::unix::net::UnixDatagram;
use std::process::{Command, Stdio};

/// Where the input of a difference is kept.
const SAVED: &str = "target/difference.trace";

/// Every result that the program can give, and every cause.
const RESULTS: [u64; 7] = [0, 2, 3, 5, 6, 7, 8];
const CAUSES: [u64; 6] = [0, 1, 2, 3, 4, 5];

#[derive(Default)]
struct Seen {
    inputs: BTreeMap<&'static str, usize>,
    lines: usize,
    results: BTreeMap<u64, usize>,
    causes: BTreeMap<u64, usize>,
}

pub fn run(program: &str, count: usize) -> Result<(), String> {
    let mut random = Random::from_seed(1);
    let mut seen = Seen::default();
    for index in 0..count {
        let made = input(&mut random, index);
        let mut expected = Vec::new();
        replay::run(&made.bytes[..], &mut expected).map_err(|error| error.to_string())?;
        // every fifth input comes in parts that end inside records; what is longer than the program's read would be lost of a part
        let comes = if index % 5 == 4 { Comes::InParts([25, 100, 1000, 2051][index / 5 % 4]) } else { Comes::AsPiped };
        let printed = lines_as(program, &made.bytes, comes)?;
        if printed != expected {
            return Err(difference(index, &made, &expected, &printed));
        }
        seen.note(&made, &expected);
        if (index + 1) % 200 == 0 {
            println!("{} of {count} inputs agree, {} lines", index + 1, seen.lines);
        }
    }
    seen.print();
    seen.judge()
}

/// How an input comes to the program: as a pipe brings it, or in parts of so many bytes at most, each of which is one read.
#[derive(Clone, Copy)]
enum Comes {
    AsPiped,
    InParts(usize),
}

/// What the program prints for an input, or why it cannot be said. Words behind the program's name are its arguments.
pub fn lines_of(program: &str, bytes: &[u8]) -> Result<Vec<u8>, String> {
    lines_as(program, bytes, Comes::AsPiped)
}

fn lines_as(program: &str, bytes: &[u8], comes: Comes) -> Result<Vec<u8>, String> {
    let failed = |error: std::io::Error| format!("{program}: {error}");
    let mut words = program.split(' ');
    let mut command = Command::new(words.next().unwrap_or_default());
    let (ours, theirs) = UnixDatagram::pair().map_err(failed)?;
    let stdin = if let Comes::InParts(_) = comes { Stdio::from(OwnedFd::from(theirs)) } else { Stdio::piped() };
    let mut child = command.args(words).stdin(stdin).stdout(Stdio::piped()).spawn().map_err(failed)?;
    // the command keeps its own end of the parts open until it is dropped
    drop(command);
    let pipe = child.stdin.take();
    let mut stdout = child.stdout.take().expect("stdout is piped");
    let mut printed = Vec::new();
    std::thread::scope(|scope| {
        // a program that ends before it has read everything shows in its lines
        scope.spawn(move || match (pipe, comes) {
            (Some(mut pipe), _) => pipe.write_all(bytes).is_ok(),
            // an empty part is the end
            (None, Comes::InParts(size)) => bytes.chunks(size).chain([&[][..]]).all(|part| ours.send(part).is_ok()),
            (None, Comes::AsPiped) => false,
        });
        stdout.read_to_end(&mut printed)
    })
    .map_err(failed)?;
    let status = child.wait().map_err(failed)?;
    if !status.success() {
        fs::write(SAVED, bytes).map_err(failed)?;
        return Err(format!("{program} ended with {status}; the input is in {SAVED}"));
    }
    Ok(printed)
}

pub fn difference(index: usize, made: &Input, expected: &[u8], printed: &[u8]) -> String {
    let kept = fs::write(SAVED, &made.bytes).map_or_else(|error| error.to_string(), |()| format!("saved in {SAVED}"));
    let (expected, printed) = (String::from_utf8_lossy(expected), String::from_utf8_lossy(printed));
    let (expected, printed): (Vec<&str>, Vec<&str>) = (expected.split('\n').collect(), printed.split('\n').collect());
    let line = (0..).find(|line| expected.get(*line) != printed.get(*line)).unwrap_or(0);
    let shown = |lines: &[&str]| lines.get(line).map_or("nothing".to_string(), |text| format!("'{text}'"));
    format!(
        "input {index} ({}, {} bytes, {kept}) differs at line {line}:\n  by the papers: {}\n  by the program: {}",
        made.name,
        made.bytes.len(),
        shown(&expected),
        shown(&printed)
    )
}

impl Seen {
    fn note(&mut self, made: &Input, lines: &[u8]) {
        *self.inputs.entry(made.name).or_default() += 1;
        for line in String::from_utf8_lossy(lines).lines() {
            let numbers: Vec<u64> = line.split(' ').map(|word| word.parse().unwrap_or(u64::MAX)).collect();
            self.lines += 1;
            *self.results.entry(numbers[1]).or_default() += 1;
            *self.causes.entry(numbers[2]).or_default() += 1;
        }
    }

    fn print(&self) {
        println!("{} inputs and {} lines agree", self.inputs.values().sum::<usize>(), self.lines);
        print_table("inputs", &self.inputs);
        print_table("lines with result", &self.results);
        print_table("lines with cause", &self.causes);
    }

    /// A comparison that never saw a result or a cause says nothing about it.
    fn judge(&self) -> Result<(), String> {
        let results = RESULTS.iter().filter(|result| !self.results.contains_key(result)).map(|result| format!("result {result}"));
        let causes = CAUSES.iter().filter(|cause| !self.causes.contains_key(cause)).map(|cause| format!("cause {cause}"));
        let missing: Vec<String> = results.chain(causes).collect();
        if missing.is_empty() {
            return Ok(());
        }
        Err(format!("never seen: {}", missing.join(", ")))
    }
}

pub fn print_table<K: std::fmt::Display>(what: &str, counts: &BTreeMap<K, usize>) {
    for (key, count) in counts {
        println!("{:>18} {:<20} {:>9}", what, key.to_string(), count);
    }
}
