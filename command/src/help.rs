//! What `--help` and `--version` print.

use crate::arguments::Command;

/// The version is the header's; it is said nowhere else.
pub fn version() -> &'static str {
    let header = include_str!("../../include/lumbixet.h");
    let behind = header.split("#define LUMBIXET_VERSION_TEXT \"").nth(1);
    behind.and_then(|text| text.split('"').next()).unwrap_or("of unknown number")
}

const STATUS: &str = "
Exit status: 0; 1 where something in the data was refused and --strict is given; 2 for wrong use;
3 where reading or writing failed.
";

pub fn general() -> String {
    format!("{GENERAL}{STATUS}")
}

pub fn of(command: Command) -> String {
    let text = match command {
        Command::Replay => REPLAY,
        Command::Frame => FRAME,
        Command::Report => REPORT,
        Command::Week => WEEK,
        Command::Objects => OBJECTS,
    };
    format!("{text}{STATUS}")
}

const GENERAL: &str = "lumbixet COMMAND [OPTION..] [FILE..]

Says what a receiver of a live hearing answers, and what frames and reports hold.

  replay [FILE..]   replays the events of a hearing: index, result and cause of each
  frame HEX|FILE..  reads ACK, ACK_FREQUENCY and IMMEDIATE_ACK frames, field by field
  report FILE..     reads feedback reports, field by field, and their entries
  week [FILE..]     adds up a week's feedback reports: one page
  objects [FILE..]  says and draws what reports say of each object, from lines of statuses

  help COMMAND      says what that command takes
  -h, --help        says this; after a command, what that command takes
  -V, --version     prints the version

- in place of a FILE is standard input.
";

const REPLAY: &str = "lumbixet replay [OPTION..] [FILE..]

Gives each event record of 24 bytes to a receiver, and prints a line for each: its index from 0, the
result (0 accepted, else the refusal), and why an acknowledgment is due afterwards (0 nothing is due,
1 IMMEDIATE_ACK, 2 count, 3 order, 4 congestion, 5 timer). Each FILE is a hearing of its own. Without
one, and for -, it reads standard input, and answers what has come.

  --words           says each line in a sentence
  --json            prints one object a line, for machines
  --picture OUT     also draws the hearing, as SVG, to the file OUT
  --page OUT        also makes a page with the picture, tables and refusals in words, as HTML
  --from T, --to T  draws the part from T on, and the part before T: since the first record,
                    such as 250ms, 1.5s, 12min or 1:02:03
  --strict          exit status 1 where a record was refused
  -h, --help        says this
  -V, --version     prints the version
";

const FRAME: &str = "lumbixet frame [OPTION..] HEX|FILE..

Reads the frames ACK (type 02 or 03), ACK_FREQUENCY and IMMEDIATE_ACK, one after the other, and says what each
field holds, or what was refused and where. An argument of hexadecimal digits in pairs is HEX, and
such arguments in a row are one run of bytes; any other names a FILE that holds the bytes (for one with
a name like digits, say ./02). - is standard input.

  --json            prints one object a line, for machines
  --strict          exit status 1 where a frame was refused
  -h, --help        says this
  -V, --version     prints the version
";

const REPORT: &str = "lumbixet report [OPTION..] FILE..

Reads feedback reports, one in each FILE, and says what each field holds, with the entries as a table,
or what was refused and where. - is standard input.

  --profile N       the profile of the reports: 1, or 2 for entries with a group; without it 1
  --json            prints one object a line, for machines
  --strict          exit status 1 where a report was refused
  -h, --help        says this
  -V, --version     prints the version
";

const WEEK: &str = "lumbixet week [OPTION..] [FILE..]

Adds up the feedback reports of all FILEs, each report after its length of four bytes with the high byte
first, and prints one page: reports accepted, reports refused for each number that occurs, the four totals of
the accepted summaries, and their entries by status. A number that would pass 2^64 - 1 stays there and
is marked full. A report longer than 8,192 bytes is refused with 20. Where a file ends early it prints 2
alone. Without a FILE, and for -, it reads standard input.

  --words           says it in sentences, with percentages and, where they are known, dates
  --json            prints one object a line, for machines
  --each            has a row for each FILE, and one for all of them
  --picture OUT     also draws the totals, as SVG, to the file OUT
  --page OUT        also makes a page with the picture, tables and refusals in words, as HTML
  --strict          exit status 1 where a report was refused or a file ends early
  -h, --help        says this
  -V, --version     prints the version
";

const OBJECTS: &str = "lumbixet objects [OPTION..] [FILE..]

Reads lines of statuses, one for each report of a hearing's tracker, as examples/objects.c prints them: the
time in microseconds, a letter for each object in a row (R received, L late, - not received, P partial, a dot
where nothing is said yet) and the summary. Other lines are remarks on the report that follows. It prints
the lines as they are. Without a FILE, and for -, it reads standard input.

  --words           says in sentences which objects have which status
  --json            prints one object a line, for machines
  --first N         the number of the first object; without it 0
  --picture OUT     also draws the statuses, as SVG, to the file OUT
  --page OUT        also makes a page with the picture and the sentences, as HTML
  --strict          exit status 1 where no line has statuses
  -h, --help        says this
  -V, --version     prints the version
";
