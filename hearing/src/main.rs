//! A hearing from end to end, simulated: a sender that listens, a line that loses, and the library's receiver; beside it the
//! receiver of the complaint, which stores the reordering threshold of a stale frame.
//!
//!     lumbixet-hearing                  the table over all settings and both receivers
//!     lumbixet-hearing picture          the encoder's rate and the sound over time, both receivers, as an SVG picture
//!     lumbixet-hearing events SETTING right|faulty     what happened in one of the settings 1 to 12, a line each

mod chance;
mod control;
mod hearing;
mod line;
mod media;
mod ndtc;
mod picture;
mod room;
mod scream;
mod sender;
mod settings;
mod table;

use hearing::hear;
use settings::SETTINGS;

const SEED: u64 = 2026;
/// The setting that the picture shows.
const SHOWN: usize = 7;

/// The place of a setting that is named by its number.
fn which(setting: &str) -> Option<usize> {
    setting.parse().ok().and_then(|number: usize| number.checked_sub(1)).filter(|place| *place < SETTINGS.len())
}

fn print_table() {
    let rows: Vec<[String; 17]> = SETTINGS
        .iter()
        .flat_map(|setting| [false, true].map(|faulty| table::row(&hear(*setting, SEED, faulty), faulty)))
        .collect();
    let heading = table::HEADING.map(String::from);
    let width = |column: usize| rows.iter().chain([&heading]).map(|row| row[column].len()).max().unwrap_or(0);
    let line = |row: &[String; 17]| {
        let right = row.iter().enumerate().skip(1).map(|(i, cell)| format!("  {cell:>w$}", w = width(i)));
        println!("  {:<w$}{}", row[0], right.collect::<String>(), w = width(0));
    };
    for (index, setting) in SETTINGS.iter().enumerate() {
        println!("{}", setting.name);
        line(&heading);
        line(&rows[2 * index]);
        line(&rows[2 * index + 1]);
    }
}

fn main() {
    let words: Vec<String> = std::env::args().skip(1).collect();
    match words.iter().map(String::as_str).collect::<Vec<_>>()[..] {
        [] => print_table(),
        ["picture"] => {
            let [right, faulty] = [false, true].map(|faulty| hear(SETTINGS[SHOWN], SEED, faulty));
            print!("{}", picture::draw(&SETTINGS[SHOWN], &right, &faulty));
        }
        ["events", setting, receiver] if which(setting).is_some() && ["right", "faulty"].contains(&receiver) => {
            let outcome = hear(SETTINGS[which(setting).unwrap_or(0)], SEED, receiver == "faulty");
            println!("{}", outcome.events.join("\n"));
        }
        _ => {
            eprintln!("usage: lumbixet-hearing [picture | events SETTING right|faulty]; settings are 1 to {}", SETTINGS.len());
            std::process::exit(2);
        }
    }
}
