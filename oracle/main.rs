//! A second implementation of document 01 and of the requests of document 02 that have landed, written from the papers alone,
//! in plain sets and numbers, to be compared with the proved one.
//!
//!     rustc -O --edition 2021 -o oracle oracle/main.rs
//!     rustc -O --edition 2021 --cfg archive -L target/lib -o oracle oracle/main.rs
//!
//! The second links the archive for hosts in C, and has `compare-archive` too.

#[cfg(archive)]
mod archive;
#[cfg(archive)]
mod compare_archive;
#[cfg(archive)]
mod compare_codec;
#[cfg(archive)]
mod compare_counts;
#[cfg(archive)]
mod compare_cuts;
#[cfg(archive)]
mod compare_forms;
#[cfg(archive)]
mod compare_lent;
#[cfg(archive)]
mod compare_limits;
#[cfg(archive)]
mod compare_newest;
#[cfg(archive)]
mod compare_pieces;
#[cfg(archive)]
mod compare_profiles;
#[cfg(archive)]
mod compare_ranges;
#[cfg(archive)]
mod compare_receiver;
mod compare_replay;
#[cfg(archive)]
mod compare_report;
#[cfg(archive)]
mod compare_sent;
#[cfg(archive)]
mod compare_totals;
#[cfg(archive)]
mod compare_tracker;
mod compare_week;
mod example_lines;
mod examples;
mod examples_counts;
mod examples_newest;
mod examples_pieces;
mod examples_profile;
mod examples_receiver;
mod examples_report;
mod examples_sent;
mod examples_tracker;
mod examples_wire;
mod frames;
#[cfg(archive)]
mod made_up;
#[cfg(archive)]
mod made_up_bytes;
#[cfg(archive)]
mod made_up_pieces;
#[cfg(archive)]
mod made_up_report;
#[cfg(archive)]
mod made_up_sent;
#[cfg(archive)]
mod made_up_tracker;
#[cfg(archive)]
mod moments;
mod newest;
mod numbers;
mod pieces;
mod profile;
mod random;
mod receiver;
mod record;
mod refusals;
mod relay;
mod replay;
mod report;
mod sent;
#[cfg(archive)]
mod tally;
mod traces;
mod tracker;
mod week;
mod weeks;

use std::io::{self, Write};
use std::process::exit;

const USAGE: &str = "oracle examples                      the settled and published examples
oracle replay < TRACE                the lines of document 01's replay program
oracle compare-replay PROGRAM COUNT  the program's lines against these, over COUNT inputs
oracle compare-archive COUNT         the archive's calls against these, over COUNT rounds (built with --cfg archive)
oracle trace-large > TRACE           a trace of a million events, for timing
oracle relay                         what examples/relay.c prints before its times
oracle week < FILE                   the page of document 02's week's totals
oracle compare-week PROGRAM COUNT    the program's pages against these, over COUNT files
oracle week-large BYTES > FILE       a week of so many bytes, for timing";

fn main() {
    let words: Vec<String> = std::env::args().skip(1).collect();
    let words: Vec<&str> = words.iter().map(String::as_str).collect();
    let done = match words[..] {
        ["examples"] => examples::run(),
        ["replay"] => replay::run(io::stdin().lock(), io::stdout().lock()).map_err(|error| error.to_string()),
        ["compare-replay", program, count] => compare_replay::run(program, number(count)),
        #[cfg(archive)]
        ["compare-archive", count] => compare_archive::run(number(count)),
        ["trace-large"] => io::stdout().write_all(&traces::large()).map_err(|error| error.to_string()),
        ["relay"] => relay::run(io::stdout().lock()),
        ["week"] => week::run(io::stdin().lock(), io::stdout().lock()).map_err(|error| error.to_string()),
        ["compare-week", program, count] => compare_week::run(program, number(count)),
        ["week-large", bytes] => weeks::large(number(bytes), io::stdout().lock()).map_err(|error| error.to_string()),
        _ => Err(USAGE.to_string()),
    };
    if let Err(why) = done {
        eprintln!("{why}");
        exit(1);
    }
}

fn number(word: &str) -> usize {
    word.parse().unwrap_or_else(|_| {
        eprintln!("'{word}' is not a count");
        exit(1)
    })
}
