//! `lumbixet report`: what feedback reports say, field by field, and their entries as a table.

use lumbixet::{Entry, Metrics, Profile, Refusal, Report, Status as Became};

use crate::arguments::{Command, Form, Options};
use crate::fields::{table, Fault, Field, Walk};
use crate::input::{self, Trouble};
use crate::json::{array, Object};
use crate::looks;
use crate::output::{Failed, Output, Status};
use crate::text::{counted, grouped};

/// No report is longer: 200 entries of 24 bytes, and fewer numbers than that. What follows cannot change the refusal.
const LONG: usize = 1 << 16;

/// The fields before the entries.
fn walk(bytes: &[u8]) -> Walk<'_> {
    let mut walk = Walk::new(bytes);
    for name in ["timestamp", "interval", "total", "received", "late", "lost", "average"] {
        walk.next(name);
    }
    let count = walk.next("metric count");
    walk.pairs(count.unwrap_or(0), "metric type", "metric value");
    walk.next("entry count");
    walk
}

/// A metric type's name in words, and for machines; profile 2 has types without a name.
fn metric_names(kind: u64) -> (String, String) {
    let (words, machines) = match kind {
        Metrics::PLAYOUT_AHEAD_MS => ("PLAYOUT_AHEAD_MS", "playout_ahead_ms"),
        Metrics::ESTIMATED_BANDWIDTH_KBPS => ("ESTIMATED_BANDWIDTH_KBPS", "estimated_bandwidth_kbps"),
        Metrics::PEER_RTT_US => ("PEER_RTT_US", "peer_rtt_us"),
        Metrics::PEER_LOSS_RATE => ("PEER_LOSS_RATE, per mille", "peer_loss_per_mille"),
        _ => return (format!("{}, a type without a name", grouped(kind)), format!("type_{kind}")),
    };
    (words.to_string(), machines.to_string())
}

fn says(field: &Field, average: i64) -> String {
    let value = grouped(field.value);
    match field.name {
        "timestamp" | "interval" => format!("{value} us"),
        "total" => format!("{value}: received, late and lost together"),
        "average" => format!("{} us, the mean deviation of the gaps between arrivals", grouped(average)),
        "metric type" => metric_names(field.value).0,
        _ => value,
    }
}

fn became(status: Became) -> &'static str {
    match status {
        Became::Received => "received",
        Became::Late => "late",
        Became::NotReceived => "not received",
        Became::Partial => "partial",
    }
}

/// The table of entries; those of profile 2 begin with the group.
fn put(profile: Profile, report: &Report, bytes: &[u8], output: &mut Output) {
    let rows = walk(bytes).rows(0, |_, field| says(field, report.header.average));
    let of_profile = if profile == Profile::Two { " of profile 2" } else { "" };
    output.put(&format!("report{of_profile}, {}\n{}", counted(bytes.len(), "byte"), table(&rows)));
    if report.entries.is_empty() {
        return;
    }
    let mut rows = vec![["group", "object", "status", "age"].map(str::to_string).to_vec()];
    for Entry { group, object, status, age } in report.entries.iter() {
        rows.push(vec![grouped(group), grouped(object), became(status).to_string(), format!("{} us", grouped(age))]);
    }
    if profile == Profile::One {
        rows.iter_mut().for_each(|row| drop(row.remove(0)));
    }
    output.put(&format!("entries\n{}", table(&rows)));
}

fn metrics(metrics: &Metrics) -> String {
    metrics.iter().fold(Object::new(), |object, (kind, value)| object.number(&metric_names(kind).1, value)).end()
}

fn object(profile: Profile, report: &Report, object: Object) -> Object {
    let header = &report.header;
    let entry = |entry: Entry| {
        let start = if profile == Profile::Two { Object::new().number("group", entry.group) } else { Object::new() };
        start.number("object", entry.object).text("status", became(entry.status)).number("age_us", entry.age).end()
    };
    let object = object.result(0).number("timestamp_us", header.timestamp.0).number("interval_us", header.interval.0);
    let object = object.number("total", header.total).number("received", header.received).number("late", header.late);
    let object = object.number("lost", header.lost).number("average_us", header.average);
    object.plain("metrics", metrics(&header.metrics)).plain("entries", array(report.entries.iter().map(entry)))
}

/// Which field or entry the refusal is about.
fn fault(profile: Profile, refusal: Refusal, bytes: &[u8]) -> Fault {
    let walk = walk(bytes);
    let size = profile.record_size();
    let at_entry = |index: usize| Fault { refusal, place: walk.at + size * index, field: format!("entry {index}") };
    match (refusal, walk.cut) {
        // the fields are whole: the bytes end inside an entry
        (Refusal::Ends, None) => at_entry((bytes.len() - walk.at) / size),
        (Refusal::Entry, _) => at_entry(first_bad(profile, &bytes[walk.at..])),
        _ => Fault::find(refusal, &walk, |part| Report::read(profile, part).err() == Some(refusal)),
    }
}

/// The first record that is bad by itself or does not rise above the one before it.
fn first_bad(profile: Profile, records: &[u8]) -> usize {
    let mut last = None;
    let mut index = 0;
    while let Ok(entry) = Entry::read(profile, records, index) {
        let place = Some((entry.group, entry.object));
        if last >= place {
            break;
        }
        last = place;
        index += 1;
    }
    index
}

pub fn run(options: &Options, output: &mut Output) -> Result<Status, Failed> {
    let json = options.form == Form::Json;
    let profile = options.profile.unwrap_or_default();
    input::each(&options.operands, !json, output, |name, input, output| {
        let bytes = input::up_to(input, LONG)?;
        let start = Object::new().text("file", &name.to_string_lossy());
        let answer = Report::read(profile, &bytes);
        match &answer {
            Ok(report) if json => output.put(&(object(profile, report, start).end() + "\n")),
            Ok(report) => put(profile, report, &bytes, output),
            Err(refusal) if json => output.put(&(fault(profile, *refusal, &bytes).object(0, start).end() + "\n")),
            Err(refusal) => fault(profile, *refusal, &bytes).put(0, "report", output),
        }
        output.flush().map_err(Trouble::Output)?;
        if answer.is_err() {
            looks::hint(Command::Report, input, false);
        }
        Ok(if answer.is_err() && options.strict { Status::Refused } else { Status::Done })
    })
}
