//! Compares the week's program with this one, over files from a fixed seed: every page must agree.

use crate::compare_replay::{difference, lines_of, print_table};
use crate::random::Random;
use crate::traces::Input;
use crate::week;
use crate::weeks::{for_cuts, input};
use std::collections::BTreeMap;
use std::fs::File;
use std::io;
use std::process::Command;

/// Every number of refused reports that a file can bring, the line of a file that ends early, and a full total.
const WANTED: [&str; 9] =
    ["refused 2", "refused 10", "refused 11", "refused 12", "refused 13", "refused 15", "refused 20", "2", "full"];

#[derive(Default)]
struct Seen {
    files: BTreeMap<&'static str, usize>,
    pages_with: BTreeMap<&'static str, usize>,
}

pub fn run(program: &str, count: usize) -> Result<(), String> {
    let mut random = Random::from_seed(3);
    let mut seen = Seen::default();
    for index in 0..count {
        let made = input(&mut random, index);
        compare(program, &mut seen, index, &made)?;
    }
    let whole = for_cuts();
    for length in 0..=whole.len() {
        let made = Input { name: "cut at every byte", bytes: whole[..length].to_vec() };
        compare(program, &mut seen, length, &made)?;
    }
    compare_failed(program)?;
    println!("{} pages agree, and of a folder, which cannot be read, there is none", seen.files.values().sum::<usize>());
    print_table("files", &seen.files);
    print_table("pages with", &seen.pages_with);
    seen.judge()
}

fn compare(program: &str, seen: &mut Seen, index: usize, made: &Input) -> Result<(), String> {
    let mut expected = Vec::new();
    week::run(&made.bytes[..], &mut expected).map_err(|error| error.to_string())?;
    let printed = lines_of(program, &made.bytes)?;
    if printed != expected {
        return Err(difference(index, made, &expected, &printed));
    }
    seen.note(made, &String::from_utf8_lossy(&expected));
    Ok(())
}

/// Where reading fails no page is printed, and it is said. A folder is opened like a file, and its first read fails.
fn compare_failed(program: &str) -> Result<(), String> {
    let failed = |error: io::Error| format!("{program}, of a folder: {error}");
    let mut expected = Vec::new();
    if week::run(File::open("/").map_err(failed)?, &mut expected).is_ok() || !expected.is_empty() {
        return Err("a folder was read".to_string());
    }
    let mut words = program.split(' ');
    let mut command = Command::new(words.next().unwrap_or_default());
    let ended = command.args(words).stdin(File::open("/").map_err(failed)?).output().map_err(failed)?;
    if ended.stdout.is_empty() && !ended.stderr.is_empty() {
        return Ok(());
    }
    let (printed, said) = (String::from_utf8_lossy(&ended.stdout), String::from_utf8_lossy(&ended.stderr));
    Err(format!(
        "a folder differs:\n  by the papers: no page, and it is said\n  by the program: '{printed}', and it says '{said}'"
    ))
}

impl Seen {
    fn note(&mut self, made: &Input, page: &str) {
        *self.files.entry(made.name).or_default() += 1;
        for wanted in WANTED {
            let begins =
                |line: &str| line == wanted || line.starts_with(&format!("{wanted} ")) || line.ends_with(&format!(" {wanted}"));
            if page.lines().any(begins) {
                *self.pages_with.entry(wanted).or_default() += 1;
            }
        }
    }

    /// A comparison that never saw a number says nothing about it.
    fn judge(&self) -> Result<(), String> {
        let missing: Vec<&str> = WANTED.into_iter().filter(|wanted| !self.pages_with.contains_key(wanted)).collect();
        if missing.is_empty() {
            return Ok(());
        }
        Err(format!("never seen: {}", missing.join(", ")))
    }
}
