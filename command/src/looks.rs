//! What a file looks like that was probably given to the wrong command. It is only a hint: every answer stays as it is.

use lumbixet::{Profile, Report};

use crate::arguments::Command;
use crate::event::{IMMEDIATE, PACKET, RECORD};
use crate::hex;
use crate::input::Input;
use crate::output::complain;

/// So many bytes of a file are looked at.
pub const HEAD: usize = 1024;

/// Files that begin with these bytes say what they are.
const MAGICS: [(&[u8], &str); 21] = [
    (b"\xd4\xc3\xb2\xa1", "a packet capture (pcap)"),
    (b"\xa1\xb2\xc3\xd4", "a packet capture (pcap)"),
    (b"\x4d\x3c\xb2\xa1", "a packet capture (pcap)"),
    (b"\xa1\xb2\x3c\x4d", "a packet capture (pcap)"),
    (b"\x0a\x0d\x0d\x0a", "a packet capture (pcapng)"),
    (b"\x1f\x8b\x08", "compressed data (gzip)"),
    (b"\x28\xb5\x2f\xfd", "compressed data (zstd)"),
    (b"\xfd7zXZ\0", "compressed data (xz)"),
    (b"BZh", "compressed data (bzip2)"),
    (b"PK\x03\x04", "an archive (zip)"),
    (b"\x89PNG", "a picture (PNG)"),
    (b"\xff\xd8\xff", "a picture (JPEG)"),
    (b"%PDF", "a document (PDF)"),
    (b"\x7fELF", "a program"),
    (b"<svg", "a picture (SVG)"),
    (b"<?xml", "XML"),
    (b"<!DOCTYPE", "a page (HTML)"),
    (b"{\"", "JSON"),
    (b"accepted ", "the page of a week"),
    (b"#!", "a script"),
    (b"\xef\xbb\xbf", "text"),
];

/// The words for it, and the command that reads it.
type Look = (&'static str, Option<Command>);

/// What the bytes at the start of a file look like; `whole` where there are no more.
fn look(head: &[u8], whole: bool) -> Option<Look> {
    let magic = || MAGICS.iter().find(|(start, _)| head.starts_with(start)).map(|(_, words)| (*words, None));
    let own = || match () {
        _ if is_hearing(head) => Some(("the records of a hearing", Some(Command::Replay))),
        _ if is_reports(head, whole) => Some(("a file of reports, each after its length", Some(Command::Week))),
        _ if whole && Report::read(Profile::One, head).is_ok() => Some(("a report", Some(Command::Report))),
        _ if whole && Report::read(Profile::Two, head).is_ok() => Some(("a report of profile 2", Some(Command::Report))),
        _ => None,
    };
    let text = || match () {
        _ if head.is_empty() || !head.iter().all(|byte| matches!(byte, 9..=13 | 32..=126 | 128..=255)) => None,
        _ if is_lines(head) => Some(("the lines that replay prints", None)),
        _ if std::str::from_utf8(head).ok().and_then(hex::parse).is_some() => Some(("hexadecimal digits", None)),
        _ if std::str::from_utf8(head).map_or_else(|cut| head.len() - cut.valid_up_to() > 3, |_| false) => None,
        _ => Some(("text", None)),
    };
    magic().or_else(own).or_else(text)
}

/// Records of known kinds with known flags and nothing in the bytes that are ignored.
fn is_hearing(head: &[u8]) -> bool {
    let plain = |record: &[u8]| (PACKET..=IMMEDIATE).contains(&record[0]) && record[1] < 16 && record[2..8] == [0; 6];
    head.len() >= RECORD && head.chunks_exact(RECORD).all(plain)
}

/// A length, and behind it a report that is accepted.
fn is_reports(head: &[u8], whole: bool) -> bool {
    let length = match head {
        [a, b, c, d, ..] => u32::from_be_bytes([*a, *b, *c, *d]) as usize,
        _ => return false,
    };
    match head.get(4..4 + length) {
        Some(report) => Report::read(Profile::One, report).is_ok(),
        None => !whole && (HEAD - 4..=8192).contains(&length),
    }
}

/// A first line of three numbers.
fn is_lines(head: &[u8]) -> bool {
    let line = head.split(|byte| *byte == b'\n').next().unwrap_or_default();
    let words: Vec<&[u8]> = line.split(|byte| *byte == b' ').collect();
    words.len() == 3 && words.iter().all(|word| !word.is_empty() && word.iter().all(u8::is_ascii_digit))
}

/// What each command reads.
fn expected(command: Command) -> &'static str {
    match command {
        Command::Replay => "the records of a hearing",
        Command::Frame => "frames",
        Command::Report => "a report",
        Command::Week => "a file of reports, each after its length",
        Command::Objects => "lines of statuses",
    }
}

/// Says what the file looks like, where that is something else. `none` where nothing at its start was as it should be.
pub fn hint(command: Command, input: &Input, none: bool) {
    let (head, whole) = input.head();
    match look(head, whole) {
        Some(("a report of profile 2", _)) if command == Command::Report => {
            complain(&format!("{}: this looks like a report of profile 2; try --profile 2", input.name()));
        }
        Some((_, Some(own))) if own == command => {}
        Some((words, other)) => {
            let other = other.map_or(String::new(), |other| format!("; try 'lumbixet {}'", other.name()));
            complain(&format!("{}: this looks like {words}, not like {}{other}", input.name(), expected(command)));
        }
        None if none => {
            complain(&format!("{}: this does not look like {}: nothing at its start does", input.name(), expected(command)));
        }
        None => {}
    }
}
