//! The reports of the room's story.

use super::{hex, refused, Room};
use lumbixet::*;

impl Room {
    /// Reads a report, and says its metrics, and what became of each object that it has an entry for.
    fn read_report(&mut self, profile: Profile, bytes: &[u8]) {
        let report = match Report::read(profile, bytes) {
            Ok(report) => report,
            Err(refusal) => return self.say(&refused(refusal)),
        };
        let Header { total, received, late, lost, average, metrics, .. } = report.header;
        self.say(&format!("Read back: {total} objects, {received} received, {late} late, {lost} lost, "));
        self.say(&format!("average deviation {average} microseconds.\n"));
        for (kind, value) in metrics.iter() {
            self.say(&format!("  Metric {kind} is {value}.\n"));
        }
        for Entry { group, object, status, age } in report.entries.iter() {
            self.say(&format!("  Object {object} "));
            if profile == Profile::Two {
                self.say(&format!("of group {group} "));
            }
            let how = match status {
                Status::NotReceived => {
                    self.say("did not come.\n");
                    continue;
                }
                Status::Received => "in time",
                Status::Late => "late",
                Status::Partial => "in part",
            };
            self.say(&format!("came {how}, {age} microseconds before the report.\n"));
        }
    }

    pub fn report(&mut self) {
        let entry = |object, status, age| Entry { group: 0, object, status, age }.record();
        let records = [entry(100, Status::Received, 40000), entry(101, Status::Late, 20000), entry(102, Status::NotReceived, 0)];
        let summary = Header { total: 3, received: 1, late: 1, lost: 1, average: -2, ..Header::default() };
        let header = Header { timestamp: Micros(1_000_000), interval: Micros(100_000), ..summary };
        let mut buffer = [0; 47];
        let Written { bytes, kept } = header.write(&mut buffer, &records).expect("there is room");
        self.say(&format!("A report of 3 objects is written into 47 bytes. It takes {}, ", bytes.len()));
        self.say(&format!("and keeps the last {kept} of 3 records.\n"));
        let entries = Report::read(Profile::One, bytes).expect("what was written is read").entries;
        assert_eq!(entries.bytes().as_ptr_range().end, bytes.as_ptr_range().end, "the entries are lent, not copied");
        self.say(&format!("  Its numbers are{}.\n", hex(&bytes[..bytes.len() - entries.bytes().len()])));
        self.read_report(Profile::One, bytes);
        self.say("The report without its last byte.");
        self.read_report(Profile::One, &bytes[..bytes.len() - 1]);
        let mut longer = bytes.to_vec();
        longer.insert(14, 0x40);
        self.say("The report with its entry count in two bytes, 40 02.");
        self.read_report(Profile::One, &longer);
    }

    /// Profile 2: each record begins with its group, and a metric may have a type that has no name yet.
    pub fn groups(&mut self) {
        let entry = |group, object, status, age| Entry { group, object, status, age }.record_with_group();
        let (late, lost) = (entry(7, 40, Status::Late, 1000), entry(7, 41, Status::NotReceived, 0));
        let summary = Header { total: 3, received: 1, late: 1, lost: 1, ..Header::default() };
        let metrics = Metrics::of(&[(Metrics::PLAYOUT_AHEAD_MS, 80), (20, 5)]);
        let header = Header { timestamp: Micros(1_000_000), interval: Micros(100_000), metrics, ..summary };
        let mut buffer = [0; REPORT_2_ROOM];
        let records = [late, lost, entry(8, 0, Status::Received, 500)];
        let Written { bytes, .. } = header.write(&mut buffer, &records).expect("there is room");
        self.say(&format!("A report of profile 2 takes {} bytes.\n", bytes.len()));
        let entries = Report::read(Profile::Two, bytes).expect("what was written is read").entries;
        self.say(&format!("  Its numbers are{}.\n", hex(&bytes[..bytes.len() - entries.bytes().len()])));
        self.read_report(Profile::Two, bytes);
        self.say("The last object in it that did not come is sought.");
        self.newest(Profile::Two, bytes);
        // a profile that there is not has no name here
        let third = unsafe { raw::lumbixet_read_report(3, bytes.as_ptr(), bytes.len()) };
        self.say(&format!("Read as profile 3.{}", refused(Refusal::from_number(third.result))));
    }

    /// Says which object of a report is the last that did not come. The search begins at the end and stops there.
    fn newest(&mut self, profile: Profile, bytes: &[u8]) {
        self.say(&match Report::newest_lost(profile, bytes) {
            Err(refusal) => refused(refusal),
            Ok(None) => " There is none.\n".to_string(),
            Ok(Some(Lost { group, object })) if profile == Profile::Two => format!(" It is object {object} of group {group}.\n"),
            Ok(Some(Lost { object, .. })) => format!(" It is object {object}.\n"),
        });
    }

    /// Three objects, of which the middle one did not come; the report is then changed byte by byte.
    pub fn newest_lost(&mut self) {
        let entry = |object, status, age| Entry { group: 0, object, status, age }.record();
        let records = [entry(100, Status::Received, 40000), entry(101, Status::NotReceived, 0), entry(102, Status::Late, 20000)];
        let summary = Header { total: 3, received: 1, late: 1, lost: 1, ..Header::default() };
        let header = Header { timestamp: Micros(1_000_000), interval: Micros(100_000), ..summary };
        let mut buffer = [0; REPORT_ROOM];
        let mut bytes = header.write(&mut buffer, &records).expect("there is room").bytes.to_vec();
        let entries = bytes.len() - 48;
        self.say("Object 100 came, 101 did not, 102 came late.");
        self.newest(Profile::One, &bytes);
        bytes[entries + 8] = 7;
        self.say("Object 100 gets status 7, which means nothing; the search does not come to it.");
        self.newest(Profile::One, &bytes);
        self.say("The whole report is read.");
        self.read_report(Profile::One, &bytes);
        bytes[entries + 8] = Status::Received as u8;
        bytes[entries + 16 + 8] = Status::Partial as u8;
        self.say("Object 100 came after all, and 101 in part.");
        self.newest(Profile::One, &bytes);
        bytes[entries + 32 + 7] = 101;
        self.say("Both of the last two entries are of object 101.");
        self.newest(Profile::One, &bytes);
        bytes.push(0);
        self.say("And a byte stands behind the report.");
        self.newest(Profile::One, &bytes);
    }
}

/// Seventy objects did not come; the report has at most so many entries.
pub fn lost(maximum: u64) -> String {
    let entry = |object| Entry { group: 0, object, status: Status::NotReceived, age: 0 };
    let records: Vec<_> = (100..170).map(|object| entry(object).record()).collect();
    let times = Header { timestamp: Micros(1_000_000), interval: Micros(100_000), ..Header::default() };
    let mut buffer = [0; REPORT_ROOM];
    let came_to = match (Header { total: 70, lost: 70, ..times }).write_at_most(maximum, &mut buffer, &records) {
        Err(refusal) => refused(refusal),
        Ok(Written { bytes, kept }) => {
            let first = Report::read(Profile::One, bytes)
                .expect("what was written is read")
                .entries
                .get(0)
                .map_or(0, |entry| entry.object);
            format!(" It takes {} bytes, and has the last {kept}, from object {first} on.\n", bytes.len())
        }
    };
    format!("A report of 70 lost objects with at most {maximum} entries.{came_to}")
}
