//! The command `lumbixet`: replays hearings, reads frames and feedback reports, adds up a week's, and says what they hold. Every
//! answer is that of a proved call of the archive (bindings/rust); what stands here reads, prints and draws. `objects` alone
//! shows lines that a host printed.
//!
//! It has a `main` of its own, as C programs do: Rust's would put /dev/null in place of an output that the caller closed, and
//! the log would be lost in silence. So it fails. A file that gets the number of a closed output is open for reading only, and
//! pictures and pages are opened when all lines are out.
#![no_main]

mod arguments;
mod axis;
mod bars;
mod bins;
mod dates;
mod event;
mod fields;
mod frame;
mod frames;
mod gaps;
mod guess;
mod hearing_page;
mod help;
mod hex;
mod input;
mod json;
mod kinds;
mod looks;
mod moments;
mod objects;
mod objects_picture;
mod output;
mod packets;
mod page;
mod picture;
mod replay;
mod report;
mod save;
mod strips;
mod sums;
mod svg;
mod system;
mod tally;
mod text;
mod types;
mod week;
mod week_page;
mod week_picture;
mod week_words;
mod words;

use crate::arguments::{Asked, Command};
use crate::output::{Output, Status};

#[no_mangle]
pub extern "C" fn main(_count: i32, _words: *const *const u8) -> i32 {
    system::let_broken_pipes_end_it();
    let words = std::env::args_os().skip(1).collect();
    let status = match arguments::parse(words) {
        Ok(asked) => run(&asked),
        Err(why) => {
            output::complain(&why);
            Status::WrongUse
        }
    };
    status as i32
}

/// Does what was asked. An output that fails ends the run at once; an input that fails is named, and the next one is read.
fn run(asked: &Asked) -> Status {
    if let Asked::Run(_, options) = asked {
        if let Err(why) = save::look(&options.operands, &options.wanted()) {
            output::complain(&why);
            return Status::WrongUse;
        }
    }
    let mut output = Output::standard();
    let done = match asked {
        Asked::Help(text) => output.print(text).map(|()| Status::Done),
        Asked::Version => output.print(&format!("lumbixet {}\n", help::version())).map(|()| Status::Done),
        Asked::Run(Command::Replay, options) => replay::run(options, &mut output),
        Asked::Run(Command::Frame, options) => frame::run(options, &mut output),
        Asked::Run(Command::Report, options) => report::run(options, &mut output),
        Asked::Run(Command::Week, options) => week::run(options, &mut output),
        Asked::Run(Command::Objects, options) => objects::run(options, &mut output),
    };
    done.unwrap_or_else(|failed| {
        output::complain(&failed.to_string());
        Status::Failed
    })
}
