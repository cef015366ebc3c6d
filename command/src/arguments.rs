//! What the words of a command line ask for.

use std::ffi::{OsStr, OsString};
use std::os::unix::ffi::OsStrExt;

use lumbixet::Profile;

use crate::guess;
use crate::help;
use crate::input;
use crate::moments;
use crate::save::Wanted;
use crate::tally::Range;

#[derive(Clone, Copy, PartialEq, Eq)]
pub enum Command {
    Replay,
    Frame,
    Report,
    Week,
    Objects,
}

use Command::{Frame, Objects, Replay, Report, Week};

/// How lines are printed.
#[derive(Clone, Copy, PartialEq, Eq)]
pub enum Form {
    /// As the proved programs print them; frames and reports in words.
    Plain,
    /// Each line as a sentence.
    Words,
    /// One object a line, for machines.
    Json,
}

pub struct Options {
    pub form: Form,
    /// Whether a refusal in the data shows in the exit status.
    pub strict: bool,
    /// Whether each file is shown by itself, too.
    pub each: bool,
    /// Where the picture goes.
    pub picture: Option<OsString>,
    /// Where the page in HTML goes.
    pub page: Option<OsString>,
    /// The part of the hearing that is drawn.
    pub range: Range,
    /// The profile of the reports; 1 where none is given.
    pub profile: Option<Profile>,
    /// The number of the first object of a strip; 0 where none is given.
    pub first: Option<u64>,
    /// Files, or the digits of a frame.
    pub operands: Vec<OsString>,
}

pub enum Asked {
    Help(String),
    Version,
    Run(Command, Options),
}

pub const COMMANDS: [Command; 5] = [Replay, Frame, Report, Week, Objects];

/// Each option, whether a value follows it, and the commands that take it.
const OPTIONS: [(&str, bool, &[Command]); 12] = [
    ("--words", false, &[Replay, Week, Objects]),
    ("--json", false, &COMMANDS),
    ("--each", false, &[Week]),
    ("--picture", true, &[Replay, Week, Objects]),
    ("--page", true, &[Replay, Week, Objects]),
    ("--from", true, &[Replay]),
    ("--to", true, &[Replay]),
    ("--profile", true, &[Report]),
    ("--first", true, &[Objects]),
    ("--strict", false, &COMMANDS),
    ("--help", false, &COMMANDS),
    ("--version", false, &COMMANDS),
];

impl Command {
    fn of(word: &str) -> Option<Command> {
        COMMANDS.into_iter().find(|command| command.name() == word)
    }

    pub fn name(self) -> &'static str {
        match self {
            Replay => "replay",
            Frame => "frame",
            Report => "report",
            Week => "week",
            Objects => "objects",
        }
    }

    fn options(self) -> impl Iterator<Item = (&'static str, bool)> {
        OPTIONS.iter().filter(move |(_, _, commands)| commands.contains(&self)).map(|(name, value, _)| (*name, *value))
    }
}

pub fn parse(words: Vec<OsString>) -> Result<Asked, String> {
    let mut words = words.into_iter();
    let missing = "a command is missing: replay, frame, report, week or objects";
    let first = words.next().ok_or_else(|| advised(None, missing))?;
    let names = || COMMANDS.into_iter().map(Command::name);
    match first.to_str() {
        Some("--help" | "-h") => return Ok(Asked::Help(help::general())),
        Some("--version" | "-V") => return Ok(Asked::Version),
        Some("help") => return asked_help(words.next()),
        _ => {}
    }
    let shown = first.to_string_lossy();
    match first.to_str().and_then(Command::of) {
        Some(command) => parse_options(command, words).map_err(|why| advised(Some(command), &why)),
        None if shown.starts_with('-') => {
            Err(advised(None, &format!("unknown option {shown}{}", guess::near(&shown, ["--help", "--version"].into_iter()))))
        }
        None => Err(unknown_command(&shown, names().chain(["help"]))),
    }
}

/// `help`, alone or before a command.
fn asked_help(about: Option<OsString>) -> Result<Asked, String> {
    match about {
        None => Ok(Asked::Help(help::general())),
        Some(word) => match word.to_str().and_then(Command::of) {
            Some(command) => Ok(Asked::Help(help::of(command))),
            None => Err(unknown_command(&word.to_string_lossy(), COMMANDS.into_iter().map(Command::name))),
        },
    }
}

fn unknown_command(shown: &str, names: impl Iterator<Item = &'static str>) -> String {
    advised(None, &format!("unknown command '{shown}'{}", guess::near(shown, names)))
}

fn advised(command: Option<Command>, why: &str) -> String {
    format!("{why}\nTry 'lumbixet {}--help'.", command.map_or(String::new(), |command| format!("{} ", command.name())))
}

/// An option as it was typed: its name, and what follows a `=`.
fn split(word: &OsStr) -> (&OsStr, Option<OsString>) {
    let bytes = word.as_bytes();
    match bytes.iter().position(|byte| *byte == b'=') {
        Some(at) => (OsStr::from_bytes(&bytes[..at]), Some(OsStr::from_bytes(&bytes[at + 1..]).to_os_string())),
        None => (word, None),
    }
}

fn parse_options(command: Command, mut words: impl Iterator<Item = OsString>) -> Result<Asked, String> {
    let mut options = Options {
        form: Form::Plain,
        strict: false,
        each: false,
        picture: None,
        page: None,
        range: Range::default(),
        profile: None,
        first: None,
        operands: Vec::new(),
    };
    while let Some(word) = words.next() {
        if word == "--" {
            options.operands.extend(words.by_ref());
        } else if input::is_standard(&word) || !word.as_bytes().starts_with(b"-") {
            options.operands.push(word);
        } else {
            let (name, value) = split(&word);
            let name = match name.to_str() {
                Some("-h") => "--help",
                Some("-V") => "--version",
                other => other.unwrap_or(""),
            };
            match command.options().find(|(own, _)| *own == name) {
                Some(("--help", _)) => return Ok(Asked::Help(help::of(command))),
                Some(("--version", _)) => return Ok(Asked::Version),
                Some((own, true)) => options.set(own, value.or_else(|| words.next()))?,
                Some((own, false)) if value.is_none() => options.turn_on(own)?,
                Some((own, false)) => return Err(format!("{own} takes no value")),
                None => {
                    let near = guess::near(name, command.options().map(|(own, _)| own));
                    return Err(format!("unknown option {}{near}", word.to_string_lossy()));
                }
            }
        }
    }
    options.settle(command)?;
    Ok(Asked::Run(command, options))
}

impl Options {
    fn turn_on(&mut self, name: &str) -> Result<(), String> {
        match name {
            "--strict" => self.strict = true,
            "--each" => self.each = true,
            "--json" => self.choose(Form::Json)?,
            "--words" => self.choose(Form::Words)?,
            _ => {}
        }
        Ok(())
    }

    fn set(&mut self, name: &str, value: Option<OsString>) -> Result<(), String> {
        match name {
            "--picture" => once(name, &mut self.picture, file_to_write(name, value)?),
            "--page" => once(name, &mut self.page, file_to_write(name, value)?),
            "--from" => once(name, &mut self.range.from, moment(name, value)?),
            "--to" => once(name, &mut self.range.to, moment(name, value)?),
            "--first" => once(name, &mut self.first, number(name, value)?),
            _ => once(name, &mut self.profile, profile(value)?),
        }
    }

    fn choose(&mut self, form: Form) -> Result<(), String> {
        if self.form != Form::Plain && self.form != form {
            return Err("--words and --json exclude each other".to_string());
        }
        self.form = form;
        Ok(())
    }

    /// The files that will be written.
    pub fn wanted(&self) -> Vec<Wanted<'_>> {
        let picture = self.picture.iter().map(|name| Wanted { option: "--picture", name, beginning: "<svg " });
        let page = self.page.iter().map(|name| Wanted { option: "--page", name, beginning: "<!DOCTYPE html>" });
        picture.chain(page).collect()
    }

    /// What the words come to together.
    fn settle(&mut self, command: Command) -> Result<(), String> {
        if self.operands.is_empty() {
            match command {
                Replay | Week | Objects => self.operands.push("-".into()),
                Frame => return Err("the bytes of a frame are missing: HEX, a FILE, or - for standard input".to_string()),
                Report => return Err("a FILE is missing, or - for standard input".to_string()),
            }
        }
        if command != Week && self.picture.is_some() && self.operands.len() > 1 {
            return Err("--picture draws one FILE".to_string());
        }
        if !self.range.is_all() && self.picture.is_none() && self.page.is_none() {
            return Err("--from and --to choose what is drawn: give --picture or --page, too".to_string());
        }
        if self.range.from.zip(self.range.to).map_or(false, |(from, to)| from >= to) {
            return Err("--to must lie after --from".to_string());
        }
        if self.operands.iter().filter(|name| input::is_standard(name)).count() > 1 {
            return Err("standard input can be read only once".to_string());
        }
        Ok(())
    }
}

fn once<T>(name: &str, place: &mut Option<T>, value: T) -> Result<(), String> {
    match place.replace(value) {
        None => Ok(()),
        Some(_) => Err(format!("{name} is given twice")),
    }
}

fn file_to_write(name: &str, value: Option<OsString>) -> Result<OsString, String> {
    let named = value.filter(|value| !value.is_empty() && !input::is_standard(value));
    named.ok_or_else(|| format!("{name} needs the name of a file to write"))
}

fn moment(name: &str, value: Option<OsString>) -> Result<u64, String> {
    let time = value.as_ref().and_then(|value| value.to_str()).and_then(moments::parse);
    time.ok_or_else(|| format!("{name} needs a time since the first record, such as 250ms, 1.5s, 12min or 1:02:03"))
}

fn number(name: &str, value: Option<OsString>) -> Result<u64, String> {
    let number = value.as_ref().and_then(|value| value.to_str()).and_then(|digits| digits.parse().ok());
    number.ok_or_else(|| format!("{name} needs a number"))
}

fn profile(value: Option<OsString>) -> Result<Profile, String> {
    let number = value.as_ref().and_then(|value| value.to_str()).and_then(|digits| digits.parse().ok());
    number.and_then(Profile::from_number).ok_or_else(|| "--profile needs the number of a profile: 1 or 2".to_string())
}
