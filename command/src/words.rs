//! A line of replay as a sentence: what came, what was answered, and why an acknowledgment is due.

use lumbixet::{Cause, Mark, Refusal};

use crate::event::{Event, Told, IMMEDIATE, PACKET, TIMER, WRITE};
use crate::output::{Colour, Output};
use crate::text::{counted, grouped};

/// How a part of a sentence is painted.
pub type Paint<'a> = &'a dyn Fn(Colour, &str) -> String;

pub fn put(told: &Told, output: &mut Output) {
    let sentence = sentence(told, &|colour, text| output.painted(colour, text));
    output.put(&sentence);
    output.put("\n");
}

pub fn sentence(told: &Told, paint: Paint) -> String {
    let answer = match told.result {
        0 => "accepted".to_string(),
        number => paint(Colour::Red, &format!("refused ({number}: {})", Refusal::from_number(number))),
    };
    format!("{}: {}: {answer}; {}.", told.index, what(told), due(told, paint))
}

fn what(told: &Told) -> String {
    let event = match &told.event {
        Ok(event) => event,
        Err(bytes) => return format!("the input ends after {} of a record", counted(*bytes, "byte")),
    };
    let time = grouped(event.time);
    match event.kind {
        PACKET => format!("at {time} us packet {} came, {}", grouped(event.number), kind_of_packet(event)),
        TIMER => format!("at {time} us the timer was looked at"),
        WRITE if told.result == 0 => format!("at {time} us an acknowledgment of {} was written", counted(told.written, "byte")),
        WRITE => format!("at {time} us an acknowledgment was to be written"),
        IMMEDIATE => format!("at {time} us the sender asked for an acknowledgment"),
        other => format!("a record of unknown kind {other} came"),
    }
}

fn kind_of_packet(event: &Event) -> &'static str {
    match (event.eliciting, event.mark == Mark::Ce) {
        (true, false) => "ack-eliciting",
        (true, true) => "ack-eliciting, with a congestion mark",
        (false, false) => "not ack-eliciting",
        (false, true) => "not ack-eliciting, with a congestion mark",
    }
}

fn due(told: &Told, paint: Paint) -> String {
    match Cause::from_number(told.cause) {
        None => "nothing is due".to_string(),
        Some(cause) if told.before == told.cause => format!("an acknowledgment is still due, since {cause}"),
        Some(cause) => paint(Colour::Yellow, &format!("an acknowledgment is now due, since {cause}")),
    }
}
