//! Objects for machines, one a line.

use std::ffi::OsStr;
use std::fmt::Write;

use lumbixet::{Cause, Mark, Refusal};

use crate::event::{Hearing, Told, IMMEDIATE, PACKET, TIMER, WRITE};
use crate::hex;
use crate::output::Output;

/// A text between quotes.
pub fn quoted(text: &str) -> String {
    let mut quoted = String::from('"');
    for letter in text.chars() {
        match letter {
            '"' | '\\' => quoted.extend(['\\', letter]),
            control if control < ' ' => write!(quoted, "\\u{:04x}", control as u32).unwrap_or(()),
            other => quoted.push(other),
        }
    }
    quoted.push('"');
    quoted
}

/// Above 2^53 not every reader of JSON keeps a number exactly.
const EXACT: u128 = 1 << 53;

/// A whole number: as it stands, or between quotes where it might be rounded.
pub fn number(value: impl TryInto<i128>) -> String {
    let value = value.try_into().unwrap_or_default();
    if value.unsigned_abs() > EXACT {
        format!("\"{value}\"")
    } else {
        value.to_string()
    }
}

/// An object under way; each call adds a member.
pub struct Object {
    text: String,
}

impl Object {
    pub fn new() -> Object {
        Object { text: String::from('{') }
    }

    /// A whole number, without loss.
    pub fn number(self, name: &str, value: impl TryInto<i128>) -> Object {
        self.plain(name, number(value))
    }

    /// true, false, null, an array or an object, as it stands.
    pub fn plain(mut self, name: &str, value: impl ToString) -> Object {
        if self.text.len() > 1 {
            self.text.push(',');
        }
        self.text.push_str(&quoted(name));
        self.text.push(':');
        self.text.push_str(&value.to_string());
        self
    }

    pub fn text(self, name: &str, value: &str) -> Object {
        self.plain(name, quoted(value))
    }

    /// The words, or null.
    pub fn words(self, name: &str, value: Option<impl ToString>) -> Object {
        match value {
            Some(value) => self.text(name, &value.to_string()),
            None => self.plain(name, "null"),
        }
    }

    /// The result, 0 or the refusal's number, and the refusal in words.
    pub fn result(self, number: u64) -> Object {
        self.number("result", number).words("refusal", Some(number).filter(|number| *number != 0).map(Refusal::from_number))
    }

    pub fn end(mut self) -> String {
        self.text.push('}');
        self.text
    }
}

/// An array of what is JSON already.
pub fn array(parts: impl Iterator<Item = String>) -> String {
    format!("[{}]", parts.collect::<Vec<_>>().join(","))
}

/// The marks of packets, as RFC 3168 names them.
fn mark_name(mark: Mark) -> &'static str {
    match mark {
        Mark::None => "none",
        Mark::Ect1 => "ECT(1)",
        Mark::Ect0 => "ECT(0)",
        Mark::Ce => "CE",
    }
}

/// The object of a line of replay: the event, its answer, and the values in force afterwards. Members that an event has no use
/// for are left out.
pub fn put_told(file: &OsStr, told: &Told, hearing: &Hearing, output: &mut Output) {
    let mut object = Object::new().text("file", &file.to_string_lossy()).number("index", told.index);
    match &told.event {
        Ok(event) => {
            object = match event.kind {
                PACKET => object.text("event", "packet").number("number", event.number),
                TIMER => object.text("event", "timer"),
                WRITE => object.text("event", "write"),
                IMMEDIATE => object.text("event", "IMMEDIATE_ACK"),
                other => object.text("event", "unknown").number("kind", other),
            };
            if (PACKET..=IMMEDIATE).contains(&event.kind) {
                object = object.number("time_us", event.time);
            }
            if event.kind == PACKET {
                object = object.plain("ack_eliciting", event.eliciting).text("mark", mark_name(event.mark));
            }
            if event.kind == WRITE && told.result == 0 {
                let frame = hearing.frame(told);
                object = object.number("length", frame.len()).text("bytes", &hex::digits(frame, ""));
            }
        }
        Err(bytes) => object = object.text("event", "short").number("length", *bytes),
    }
    let object = object.result(told.result).number("cause", told.cause).words("due", Cause::from_number(told.cause));
    let force = hearing.receiver();
    let object = object.number("threshold", force.ack_eliciting_threshold()).number("reordering", force.reordering_threshold());
    output.put(&object.number("delay_us", force.delay().0).end());
    output.put("\n");
}
