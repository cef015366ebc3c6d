//! The settled examples of document 01, the published examples of RFC 9000, appendix A.1, and examples of document 02's
//! requests: one line for each.

use crate::example_lines::Examples;
use crate::examples_wire;
use crate::replay;
use crate::{examples_counts, examples_newest, examples_pieces, examples_profile, examples_receiver};
use crate::{examples_report, examples_sent, examples_tracker};

pub fn run() -> Result<(), String> {
    let mut examples = Examples::default();
    examples_wire::check(&mut examples);
    examples_receiver::check(&mut examples);
    examples_counts::check(&mut examples);
    examples_report::check(&mut examples);
    examples_profile::check(&mut examples);
    examples_newest::check(&mut examples);
    examples_pieces::check(&mut examples);
    examples_tracker::check(&mut examples);
    examples_sent::check(&mut examples);
    replays(&mut examples);
    match examples.different {
        0 => Ok(()),
        count => Err(format!("{count} examples differ")),
    }
}

fn replays(examples: &mut Examples) {
    let mut trace = Vec::new();
    for (kind, number) in [(1, 0), (1, 1), (1, 3), (1, 4), (1, 5), (3, 0), (1, 5)] {
        trace.extend_from_slice(&[kind, 1, 0, 0, 0, 0, 0, 0, 0, 0, 0, 0, 0, 0, 0, number, 0, 0, 0, 0, 0, 0, 0, 0]);
    }
    let mut lines = Vec::new();
    let ended = replay::run(&trace[..], &mut lines).is_ok();
    let wanted = "0 0 0\n1 0 0\n2 0 0\n3 0 0\n4 0 3\n5 0 0\n6 6 0\n";
    examples.check("the replay of document 01", (ended, String::from_utf8_lossy(&lines).as_ref()), (true, wanted));
}
