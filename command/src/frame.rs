//! `lumbixet frame`: what the bytes of frames say, field by field.

use std::ffi::{OsStr, OsString};

use lumbixet::Refusal;

use crate::arguments::{Command, Form, Options};
use crate::fields::Fault;
use crate::frames::{object, put, read, walk};
use crate::hex;
use crate::input::{self, Input, Trouble};
use crate::json::Object;
use crate::looks;
use crate::output::{Failed, Output, Status};
use crate::text::counted;
use crate::types::{self, PADDING, PING};

/// Lines are printed when so many bytes of them have come together.
const MANY: usize = 1 << 16;

/// So much of a file is read before it is judged whether it begins with a frame.
const START: usize = 1 << 16;

/// What is passed over at the start, to show what follows: PADDING as far as it goes, or a PING.
fn passed_over(bytes: &[u8]) -> Option<(&'static str, usize)> {
    match bytes.first() {
        Some(&PADDING) => Some(("PADDING", bytes.iter().take_while(|byte| **byte == PADDING).count())),
        Some(&PING) => Some(("PING", 1)),
        _ => None,
    }
}

/// The frame at the start of the rest, put as it was asked for: its length, or `None` where it is refused.
fn next(name: Option<&str>, rest: &[u8], base: usize, form: Form, output: &mut Output) -> Option<usize> {
    let start = || Object::new().words("file", name).number("at", base);
    let json = form == Form::Json;
    if let Some((passed, length)) = passed_over(rest) {
        if json {
            output.put(&(start().text("frame", passed).number("length", length).result(0).end() + "\n"));
        } else {
            output.put(&format!("{passed}, {} at byte {base}\n", counted(length, "byte")));
        }
        return Some(length);
    }
    match read(rest) {
        Ok((frame, length)) => {
            if json {
                output.put(&(object(&frame, &rest[..length], start()).result(0).end() + "\n"));
            } else {
                put(&frame, &rest[..length], base, output);
            }
            Some(length)
        }
        Err(refusal) => {
            let mut fault = Fault::find(refusal, &walk(rest), |bytes| read(bytes).err() == Some(refusal));
            if refusal == Refusal::OtherType {
                fault.field = types::words(rest);
            }
            if json {
                output.put(&(fault.object(base, start().plain("frame", "null")).end() + "\n"));
            } else {
                fault.put(base, "frame", output);
            }
            None
        }
    }
}

/// The frames of a run of bytes, of a file or given as digits, up to its end or the first refusal. Says whether there was one.
fn run_of(name: Option<&str>, bytes: &[u8], form: Form, output: &mut Output) -> Result<bool, Failed> {
    let mut base = 0;
    loop {
        match next(name, &bytes[base..], base, form, output) {
            Some(length) => base += length,
            None => return output.flush().map(|()| true),
        }
        if base == bytes.len() {
            return output.flush().map(|()| false);
        }
        if output.lines.len() > MANY {
            output.flush()?;
        }
    }
}

/// The bytes of a file; of one that begins with another type only the start, however long it is.
fn frames_of(input: &mut Input) -> Result<Vec<u8>, Trouble> {
    let mut bytes = input::up_to(input, START)?;
    let begins = passed_over(&bytes).is_some() || read(&bytes).err() != Some(Refusal::OtherType);
    // digits are no frame yet
    if begins || bytes.is_ascii() {
        bytes.extend(input::whole(input)?);
    }
    Ok(bytes)
}

/// The bytes of an input. Standard input may hold them as digits: no frame that is read here begins with one.
fn bytes_of(name: &OsStr, bytes: Vec<u8>) -> Vec<u8> {
    let digits = if input::is_standard(name) { std::str::from_utf8(&bytes).ok().and_then(hex::parse) } else { None };
    digits.unwrap_or(bytes)
}

/// A run of bytes to read: its digits in a row, or a file.
enum Source {
    Hex(Vec<u8>),
    File(OsString),
}

fn sources(operands: &[OsString]) -> Vec<Source> {
    let mut sources = Vec::new();
    for word in operands {
        match (word.to_str().and_then(hex::parse), sources.last_mut()) {
            (Some(more), Some(Source::Hex(bytes))) => bytes.extend(more),
            (Some(bytes), _) => sources.push(Source::Hex(bytes)),
            (None, _) => sources.push(Source::File(word.clone())),
        }
    }
    sources
}

pub fn run(options: &Options, output: &mut Output) -> Result<Status, Failed> {
    let sources = sources(&options.operands);
    let mut status = Status::Done;
    let judged = |refused| if refused && options.strict { Status::Refused } else { Status::Done };
    for (place, source) in sources.iter().enumerate() {
        let name = match source {
            Source::Hex(_) => "HEX".to_string(),
            Source::File(name) => input::said(name),
        };
        if sources.len() > 1 && options.form != Form::Json {
            input::heading(&name, place, output)?;
        }
        let now = match source {
            Source::Hex(bytes) => judged(run_of(None, bytes, options.form, output)?),
            Source::File(name) => input::each(std::slice::from_ref(name), false, output, |name, input, output| {
                let bytes = bytes_of(name, frames_of(input)?);
                let refused = run_of(Some(&name.to_string_lossy()), &bytes, options.form, output).map_err(Trouble::Output)?;
                if refused {
                    looks::hint(Command::Frame, input, false);
                }
                Ok(judged(refused))
            })?,
        };
        status = status.max(now);
    }
    Ok(status)
}
