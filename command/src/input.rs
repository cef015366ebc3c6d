//! The files that are read; `-` is standard input.

use std::ffi::{OsStr, OsString};
use std::fs::File;
use std::io::{ErrorKind, Read, Write};

use crate::looks::HEAD;
use crate::output::{self, complain, Failed, Output, Status};
use crate::system;

/// Progress is told of inputs from this length on, and at every step.
const LONG: u64 = 4 << 20;
const STEP: u64 = 1 << 20;

pub fn is_standard(name: &OsStr) -> bool {
    name == "-"
}

/// The name as messages have it.
pub fn said(name: &OsStr) -> String {
    match name.to_string_lossy() {
        shown if shown == "-" => "standard input".to_string(),
        shown if shown.is_empty() => "''".to_string(),
        shown => shown.into_owned(),
    }
}

/// A file under way.
pub struct Input {
    file: File,
    name: String,
    progress: Option<Progress>,
    /// The first bytes, and how many were read in all.
    head: Vec<u8>,
    length: u64,
}

impl Input {
    pub fn open(name: &OsStr) -> Result<Input, Failed> {
        let named = |reason| Failed { name: said(name), reason };
        let opened = if is_standard(name) { output::descriptor(system::INPUT).try_clone() } else { File::open(name) };
        let file = opened.map_err(named)?;
        let progress = Progress::of(&file);
        Ok(Input { file, name: said(name), progress, head: Vec::new(), length: 0 })
    }

    /// Reads what has come, at most as much as the buffer holds; 0 is the end of the input.
    pub fn read(&mut self, buffer: &mut [u8]) -> Result<usize, Failed> {
        loop {
            match self.file.read(buffer) {
                Ok(count) => {
                    if let Some(progress) = &mut self.progress {
                        progress.note(&self.name, count as u64);
                    }
                    if self.head.len() < HEAD {
                        let more = count.min(HEAD - self.head.len());
                        self.head.extend_from_slice(&buffer[..more]);
                    }
                    self.length += count as u64;
                    return Ok(count);
                }
                Err(reason) if reason.kind() == ErrorKind::Interrupted => {}
                Err(reason) => return Err(Failed { name: self.name.clone(), reason }),
            }
        }
    }

    /// The bytes at the start of what was read, and whether they are all of it.
    pub fn head(&self) -> (&[u8], bool) {
        (&self.head, self.head.len() as u64 == self.length)
    }

    /// The name as messages have it.
    pub fn name(&self) -> &str {
        &self.name
    }

    /// All bytes, or so many and a few more.
    fn read_whole(&mut self, most: usize) -> Result<Vec<u8>, Failed> {
        let mut bytes = Vec::new();
        let mut part = vec![0; 1 << 16];
        while bytes.len() <= most {
            match self.read(&mut part)? {
                0 => break,
                count => bytes.extend_from_slice(&part[..count]),
            }
        }
        Ok(bytes)
    }
}

impl Drop for Input {
    fn drop(&mut self) {
        if let Some(progress) = &mut self.progress {
            progress.clear();
        }
    }
}

/// How far a long input has come, said on a terminal that does not show the output itself.
struct Progress {
    length: Option<u64>,
    done: u64,
    told: u64,
}

impl Progress {
    fn of(file: &File) -> Option<Progress> {
        if !system::is_terminal(system::ERRORS) || system::is_terminal(system::OUTPUT) {
            return None;
        }
        let length = file.metadata().ok().filter(|about| about.is_file()).map(|about| about.len());
        Some(Progress { length, done: 0, told: 0 })
    }

    fn note(&mut self, name: &str, count: u64) {
        self.done += count;
        if self.length.unwrap_or(self.done) < LONG || self.done < self.told + STEP {
            return;
        }
        self.told = self.done;
        let far = match self.length {
            Some(length) => format!("{} %", (100 * self.done / length).min(100)),
            None => format!("{} MB", self.done / 1_000_000),
        };
        say(&format!("\r\x1b[K{name}: {far}"));
    }

    fn clear(&mut self) {
        if self.told > 0 {
            say("\r\x1b[K");
        }
    }
}

fn say(text: &str) {
    output::descriptor(system::ERRORS).write_all(text.as_bytes()).ok();
}

/// Opens each file in turn and hands it on, under a heading where there are several. One that fails is named on standard error
/// and the next one is taken.
pub fn each(
    names: &[OsString],
    headings: bool,
    output: &mut Output,
    mut take: impl FnMut(&OsStr, &mut Input, &mut Output) -> Result<Status, Trouble>,
) -> Result<Status, Failed> {
    let mut status = Status::Done;
    for (place, name) in names.iter().enumerate() {
        if headings && names.len() > 1 {
            heading(&said(name), place, output)?;
        }
        let taken = Input::open(name).map_err(Trouble::Input).and_then(|mut input| take(name, &mut input, output));
        let now = match taken {
            Ok(now) => now,
            Err(Trouble::Output(failed)) => return Err(failed),
            Err(Trouble::Input(failed)) => {
                complain(&failed.to_string());
                Status::Failed
            }
        };
        status = status.max(now);
    }
    Ok(status)
}

/// As `head` has it.
pub fn heading(name: &str, place: usize, output: &mut Output) -> Result<(), Failed> {
    output.print(&format!("{}==> {name} <==\n", if place > 0 { "\n" } else { "" }))
}

/// Which side failed: after an input the next one is taken, after the output nothing is.
pub enum Trouble {
    Input(Failed),
    Output(Failed),
}

/// All bytes of a file.
pub fn whole(input: &mut Input) -> Result<Vec<u8>, Trouble> {
    up_to(input, usize::MAX)
}

/// All bytes of a file, or of a longer one at least so many.
pub fn up_to(input: &mut Input, most: usize) -> Result<Vec<u8>, Trouble> {
    input.read_whole(most).map_err(Trouble::Input)
}
