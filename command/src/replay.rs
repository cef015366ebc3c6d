//! `lumbixet replay`: the lines of hearings, plain, in words or as objects, and a picture.

use std::convert::TryInto;
use std::ffi::OsStr;

use crate::arguments::{Command, Form, Options};
use crate::event::{Hearing, Told, IMMEDIATE, PACKET, RECORD};
use crate::hearing_page;
use crate::input::{self, Input, Trouble};
use crate::json;
use crate::looks;
use crate::output::{Failed, Output, Status};
use crate::page::{Page, PROVED};
use crate::picture;
use crate::save;
use crate::tally::Tally;
use crate::text::Counter;
use crate::words;

/// How many bytes are read at most at a time.
const PIECE: usize = RECORD << 12;

/// Where none of so many records at the start is of a known kind, the file is probably another one.
const FIRST: u64 = 8;

/// What is done with each record's answer.
struct Teller<'a> {
    form: Form,
    file: &'a OsStr,
    refused: bool,
    /// How many of the first records were of a known kind, and whether the very first was.
    known: u64,
    begins: bool,
    index: Counter,
    tally: Option<Tally>,
    /// The first refused records, as sentences.
    told: Vec<String>,
}

impl Teller<'_> {
    #[inline]
    fn tell(&mut self, told: &Told, hearing: &Hearing, output: &mut Output) {
        self.refused |= told.result != 0;
        if told.index < FIRST {
            let known = told.event.as_ref().map_or(false, |event| (PACKET..=IMMEDIATE).contains(&event.kind));
            self.known += u64::from(known);
            self.begins |= known && told.index == 0;
        }
        match self.form {
            // "Each line has record index from 0, result (0 accepted, else refusal), cause afterwards."
            Form::Plain => self.index.put_line(&mut output.lines, told.result, told.cause),
            Form::Words => words::put(told, output),
            Form::Json => json::put_told(self.file, told, hearing, output),
        }
        if let Some(tally) = &mut self.tally {
            if tally.note(told) && told.result != 0 && self.told.len() < hearing_page::TOLD {
                self.told.push(words::sentence(told, &|_, text| text.to_string()));
            }
        }
    }
}

pub fn run(options: &Options, output: &mut Output) -> Result<Status, Failed> {
    let headings = options.form != Form::Json;
    let drawn = options.picture.is_some() || options.page.is_some();
    let mut page = Page::new(if options.operands.len() > 1 { "Hearings" } else { "A hearing" });
    let status = input::each(&options.operands, headings, output, |name, input, output| {
        let tally = drawn.then(|| Tally::new(options.range));
        let told = Vec::new();
        let mut teller = Teller {
            form: options.form,
            file: name,
            refused: false,
            known: 0,
            begins: false,
            index: Counter::new(),
            tally,
            told,
        };
        play(input, output, &mut teller)?;
        if teller.refused && !teller.begins {
            looks::hint(Command::Replay, input, teller.known == 0);
        }
        if let Some(tally) = &mut teller.tally {
            tally.end();
            if let Some(name) = &options.picture {
                save::save(name, picture::draw(tally).as_bytes()).map_err(Trouble::Output)?;
            }
            if options.page.is_some() {
                hearing_page::put(&mut page, input.name(), tally, &teller.told);
            }
        }
        Ok(if options.strict && teller.refused { Status::Refused } else { Status::Done })
    })?;
    match &options.page {
        // what was not read to its end has no page
        Some(name) if status != Status::Failed => save::save(name, page.end(PROVED).as_bytes()).map(|()| status),
        _ => Ok(status),
    }
}

/// Plays what has come as soon as it has come; only the end of the input ends a record early.
fn play(input: &mut Input, output: &mut Output, teller: &mut Teller) -> Result<(), Trouble> {
    let mut hearing = Hearing::open();
    let mut piece = vec![0; PIECE];
    let mut kept = 0;
    loop {
        let count = input.read(&mut piece[kept..]).map_err(Trouble::Input)?;
        if count == 0 {
            break;
        }
        let filled = kept + count;
        let whole = filled - filled % RECORD;
        for record in piece[..whole].chunks_exact(RECORD) {
            if let Ok(record) = record.try_into() {
                let told = hearing.answer(record);
                teller.tell(&told, &hearing, output);
            }
        }
        output.flush().map_err(Trouble::Output)?;
        piece.copy_within(whole..filled, 0);
        kept = filled - whole;
    }
    if kept > 0 {
        let told = hearing.short(kept);
        teller.tell(&told, &hearing, output);
    }
    output.flush().map_err(Trouble::Output)
}
