//! Standard output with its failures, messages on standard error, and exit statuses.

use std::fmt;
use std::fs::File;
use std::io::{self, Write};
use std::mem::ManuallyDrop;
use std::os::unix::io::FromRawFd;

use crate::system;

/// The exit status.
#[derive(Clone, Copy, PartialEq, Eq, PartialOrd, Ord)]
pub enum Status {
    Done = 0,
    /// Something in the data was refused, and `--strict` asks for that.
    Refused = 1,
    WrongUse = 2,
    /// Reading or writing failed.
    Failed = 3,
}

/// Reading or writing failed: the file's name, and the system's reason.
#[derive(Debug)]
pub struct Failed {
    pub name: String,
    pub reason: io::Error,
}

impl fmt::Display for Failed {
    fn fmt(&self, f: &mut fmt::Formatter<'_>) -> fmt::Result {
        let reason = self.reason.to_string();
        // the number says nothing that the words do not
        let words = reason.split(" (os error").next().unwrap_or(&reason);
        write!(f, "{}: {words}", self.name)
    }
}

/// A line on standard error. Where that fails too, nobody can be told.
pub fn complain(why: &str) {
    let line = format!("lumbixet: {why}\n");
    descriptor(system::ERRORS).write_all(line.as_bytes()).ok();
}

/// The file behind a descriptor, which stays open when it is dropped.
pub fn descriptor(number: i32) -> ManuallyDrop<File> {
    ManuallyDrop::new(unsafe { File::from_raw_fd(number) })
}

/// What a text is painted in on a terminal.
#[derive(Clone, Copy)]
pub enum Colour {
    /// What was refused.
    Red = 31,
    /// What is due.
    Yellow = 33,
}

/// Standard output. What is put there goes out with the next `flush`.
pub struct Output {
    file: ManuallyDrop<File>,
    pub lines: Vec<u8>,
    colours: bool,
}

impl Output {
    pub fn standard() -> Output {
        let colours = system::is_terminal(system::OUTPUT) && std::env::var_os("NO_COLOR").map_or(true, |set| set.is_empty());
        Output { file: descriptor(system::OUTPUT), lines: Vec::new(), colours }
    }

    pub fn put(&mut self, text: &str) {
        self.lines.extend_from_slice(text.as_bytes());
    }

    /// The text, in that colour on a terminal.
    pub fn painted(&self, colour: Colour, text: &str) -> String {
        if self.colours {
            format!("\x1b[{}m{text}\x1b[0m", colour as u8)
        } else {
            text.to_string()
        }
    }

    pub fn flush(&mut self) -> Result<(), Failed> {
        let written = self.file.write_all(&self.lines);
        self.lines.clear();
        written.map_err(|reason| Failed { name: "standard output".to_string(), reason })
    }

    pub fn print(&mut self, text: &str) -> Result<(), Failed> {
        self.put(text);
        self.flush()
    }
}
