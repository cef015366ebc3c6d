//! `lumbixet week`: the page over files of feedback reports, as lines, in words or as objects; a picture, and a page in HTML.

use std::ffi::OsString;

use lumbixet::{Sum, PAGE_ROOM};

use crate::arguments::{Command, Form, Options};
use crate::fields::table;
use crate::input::{self, said};
use crate::json::{array, quoted, Object};
use crate::looks;
use crate::output::{complain, Failed, Output, Status};
use crate::save;
use crate::sums::{read, shown, Sums};
use crate::week_page;
use crate::week_picture;
use crate::week_words;

/// The refusal of a file that ends early.
const ENDS: u64 = 2;

/// What was read: each file by itself where that is asked for, and all of them in a row.
pub struct Weeks {
    pub each: Vec<(String, Sums)>,
    pub all: Sums,
}

pub fn run(options: &Options, output: &mut Output) -> Result<Status, Failed> {
    let shows = options.form == Form::Words || options.picture.is_some() || options.page.is_some();
    let mut weeks = Weeks { each: Vec::new(), all: Sums::new() };
    let mut status = input::each(&options.operands, false, output, |name, input, _| {
        let mut own = Sums::new();
        // behind a file that ended early there is no page over all, and of one file it is its own
        if weeks.all.early || options.operands.len() == 1 {
            read(input, &mut [&mut own], shows)?;
        } else {
            read(input, &mut [&mut own, &mut weeks.all], shows)?;
        }
        if options.operands.len() == 1 {
            weeks.all = own.clone();
        }
        if own.early || own.week.accepted().value == 0 && own.refused() {
            looks::hint(Command::Week, input, false);
        }
        if own.early && options.operands.len() > 1 {
            complain(&format!("{}: the file ends early, so there are no totals over all files", said(name)));
        }
        let refused = options.strict && own.refused();
        weeks.each.push((said(name), own));
        Ok(if refused { Status::Refused } else { Status::Done })
    })?;
    // a file that cannot be read would be missing in every total
    let whole = status != Status::Failed;
    put(options, &weeks, whole, output);
    output.flush()?;
    if let (Some(name), true) = (&options.picture, whole) {
        save::save(name, week_picture::draw(&weeks.all).as_bytes())?;
    }
    if let (Some(name), true) = (&options.page, whole) {
        save::save(name, week_page::make(&weeks).as_bytes())?;
    }
    if weeks.each.iter().any(|(_, sums)| sums.refused()) && options.strict {
        status = status.max(Status::Refused);
    }
    Ok(status)
}

/// What was asked for on standard output: over all files where they are whole, and before that each where `--each` asks for it.
fn put(options: &Options, weeks: &Weeks, whole: bool, output: &mut Output) {
    let each = if options.each { &weeks.each[..] } else { &[] };
    let all = whole.then_some(&weeks.all);
    match options.form {
        Form::Plain if options.each => output.put(&table(&rows(weeks, all))),
        Form::Plain => all.into_iter().for_each(|all| output.lines.extend(all.page(&mut [0; PAGE_ROOM]))),
        Form::Words => {
            for (place, (name, sums)) in each.iter().enumerate() {
                output.put(&format!("{}==> {name} <==\n{}", if place > 0 { "\n" } else { "" }, week_words::sentences(sums)));
            }
            if let Some(all) = all {
                output.put(if options.each { "\n==> all files <==\n" } else { "" });
                output.put(&week_words::sentences(all));
            }
        }
        Form::Json => {
            for ((_, sums), name) in each.iter().zip(&options.operands) {
                output.put(&(object(Object::new().text("file", &name.to_string_lossy()), sums) + "\n"));
            }
            if let Some(all) = all {
                output.put(&(object(named(&options.operands, options.each), all) + "\n"));
            }
        }
    }
}

/// The object over all files names the only one as `file`, and several as `files`.
fn named(operands: &[OsString], each: bool) -> Object {
    match operands {
        [only] if !each => Object::new().text("file", &only.to_string_lossy()),
        _ => Object::new().plain("files", array(operands.iter().map(|name| quoted(&name.to_string_lossy())))),
    }
}

/// A row for each file, and one for all of them.
pub fn rows(weeks: &Weeks, all: Option<&Sums>) -> Vec<Vec<String>> {
    let mut rows = vec![HEADINGS.map(str::to_string).to_vec()];
    rows.extend(weeks.each.iter().map(|(name, sums)| row(name, sums)));
    rows.extend(all.map(|all| row("all files", all)));
    rows
}

/// As the lines of a page are named.
pub const HEADINGS: [&str; 11] = [
    "file",
    "accepted",
    "refused",
    "total",
    "received",
    "late",
    "lost",
    "entries received",
    "entries late",
    "entries not received",
    "entries partial",
];

fn row(name: &str, sums: &Sums) -> Vec<String> {
    if sums.early {
        return vec![name.to_string(), "ends early".to_string()];
    }
    let numbers = [sums.week.accepted(), sums.refused_in_all()].into_iter();
    let objects = sums.objects().into_iter().chain(sums.entries()).map(|(_, sum)| sum);
    std::iter::once(name.to_string()).chain(numbers.chain(objects).map(shown)).collect()
}

type Named = (String, Sum);

/// The object of a page. Of a file that ends early it has no totals.
fn object(start: Object, sums: &Sums) -> String {
    if sums.early {
        return start.result(ENDS).end();
    }
    let week = &sums.week;
    let refused: Vec<Named> = week.refusals().map(|(refusal, sum)| (refusal.number().to_string(), sum)).collect();
    let entries: Vec<Named> = sums.entries().iter().map(|(name, sum)| (name.to_string(), *sum)).collect();
    let mut object = start.result(0).number("accepted", week.accepted().value).plain("refused", members(&refused));
    for (name, sum) in sums.objects() {
        object = object.number(name, sum.value);
    }
    // the lines of the page that are marked "full", by their names
    let lines = std::iter::once(("accepted".to_string(), week.accepted()));
    let lines = lines.chain(refused.iter().map(|(number, sum)| (format!("refused {number}"), *sum)));
    let lines = lines.chain(sums.objects().into_iter().map(|(name, sum)| (name.to_string(), sum)));
    let lines = lines.chain(entries.iter().map(|(name, sum)| (format!("entries {name}"), *sum)));
    let full = array(lines.filter(|(_, sum)| sum.full).map(|(name, _)| quoted(&name)));
    object.plain("entries", members(&entries)).plain("full", full).end()
}

fn members(sums: &[Named]) -> String {
    sums.iter().fold(Object::new(), |object, (name, sum)| object.number(name, sum.value)).end()
}
