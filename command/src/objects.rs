//! `lumbixet objects`: lines of statuses, as `examples/objects.c` prints them for each report of a tracker; what they say of each
//! object in words and as objects, and a picture.

use crate::arguments::{Command, Form, Options};
use crate::axis::said;
use crate::input::{self, Trouble};
use crate::json::{array, quoted, Object};
use crate::looks;
use crate::objects_picture;
use crate::output::{Failed, Output, Status};
use crate::page::{Page, GIVEN};
use crate::save;
use crate::text::grouped;

/// What each letter says of an object.
pub const LETTERS: [(char, &str); 5] =
    [('R', "received"), ('L', "late"), ('-', "not received"), ('P', "partial"), ('.', "no status yet")];

/// The names of a summary's numbers, in their order.
pub const SUMMARY: [&str; 5] = ["total", "received", "late", "lost", "average"];

/// A report: when, in microseconds, a status for each object in a row, and the summary.
pub struct Strip {
    pub time: u64,
    pub statuses: Vec<&'static str>,
    pub summary: [i64; 5],
}

/// A line is a report, or a remark on the report that follows.
pub enum Line {
    Strip(Strip),
    Remark(String),
}

/// `160001  RR-LRP-.  total 7, received 3, late 1, lost 3, average 16666`
fn parse(line: &str) -> Line {
    strip(line).map_or_else(|| Line::Remark(line.to_string()), Line::Strip)
}

fn strip(line: &str) -> Option<Strip> {
    let mut words = line.trim_start().splitn(3, "  ");
    let time = words.next()?.parse().ok()?;
    let status = |letter: char| LETTERS.iter().find(|(own, _)| *own == letter).map(|(_, status)| *status);
    let statuses = words.next().filter(|strip| !strip.is_empty())?.chars().map(status).collect::<Option<_>>()?;
    let mut parts = words.next()?.split(", ");
    let mut summary = [0; 5];
    for (number, name) in summary.iter_mut().zip(SUMMARY) {
        *number = parts.next()?.strip_prefix(name)?.strip_prefix(' ')?.parse().ok()?;
    }
    parts.next().is_none().then_some(Strip { time, statuses, summary })
}

pub fn run(options: &Options, output: &mut Output) -> Result<Status, Failed> {
    let first = options.first.unwrap_or(0);
    let mut page = Page::new("A hearing's objects");
    let status = input::each(&options.operands, options.form != Form::Json, output, |name, input, output| {
        let bytes = input::whole(input)?;
        let text = String::from_utf8_lossy(&bytes);
        let lines: Vec<Line> = text.lines().map(parse).collect();
        let strips: Vec<&Strip> = lines.iter().filter_map(Line::strip).collect();
        if strips.is_empty() {
            looks::hint(Command::Objects, input, true);
        }
        match options.form {
            Form::Plain => output.lines.extend_from_slice(&bytes),
            Form::Words => lines.iter().for_each(|line| output.put(&(sentence(line, first) + "\n"))),
            Form::Json => strips.iter().for_each(|strip| output.put(&(object(&name.to_string_lossy(), strip, first) + "\n"))),
        }
        output.flush().map_err(Trouble::Output)?;
        if let Some(name) = &options.picture {
            save::save(name, objects_picture::draw(&lines, first).as_bytes()).map_err(Trouble::Output)?;
        }
        if options.page.is_some() {
            page.heading(input.name());
            page.picture(&objects_picture::draw(&lines, first));
            page.list(&lines.iter().map(|line| sentence(line, first)).collect::<Vec<_>>());
        }
        Ok(if strips.is_empty() && options.strict { Status::Refused } else { Status::Done })
    })?;
    match &options.page {
        Some(name) if status != Status::Failed => save::save(name, page.end(GIVEN).as_bytes()).map(|()| status),
        _ => Ok(status),
    }
}

impl Line {
    pub fn strip(&self) -> Option<&Strip> {
        match self {
            Line::Strip(strip) => Some(strip),
            Line::Remark(_) => None,
        }
    }
}

/// The objects of each status, and the summary.
fn sentence(line: &Line, first: u64) -> String {
    let strip = match line {
        Line::Strip(strip) => strip,
        Line::Remark(words) => return words.clone(),
    };
    let of = |status: &str| {
        let numbers = strip.statuses.iter().zip(first..).filter(|(own, _)| **own == status).map(|(_, number)| grouped(number));
        Some(numbers.collect::<Vec<_>>().join(", "))
            .filter(|numbers| !numbers.is_empty())
            .map(|numbers| format!("{status} {numbers}"))
    };
    let said_of: Vec<String> = LETTERS.iter().filter_map(|(_, status)| of(status)).collect();
    let summary: Vec<String> =
        SUMMARY.iter().zip(strip.summary).map(|(name, number)| format!("{name} {}", grouped(number))).collect();
    format!("At {}: {}; {}.", said(strip.time.min(i64::MAX as u64) as i64), said_of.join("; "), summary.join(", "))
}

fn object(file: &str, strip: &Strip, first: u64) -> String {
    let object = Object::new().text("file", file).number("time_us", strip.time).number("first", first);
    let object = object.plain("statuses", array(strip.statuses.iter().map(|status| quoted(status))));
    SUMMARY.iter().zip(strip.summary).fold(object, |object, (name, number)| object.number(name, number)).end()
}
