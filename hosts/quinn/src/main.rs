//! Lumbixet in a real QUIC stack: quinn-proto 0.11.9, once as it is and once with every acknowledgment of the 1-RTT space decided and
//! written by Lumbixet. The sender is the crate as it is. Time is virtual and chance is seeded: the table is the same in every run.
//!
//!     lumbixet-live          the table over all settings, and the draft's example of R 3 on a connection
//!     lumbixet-live udp      the same transfer between two threads over UDP on the loopback interface; its times are judged by nothing

#[path = "../../../hearing/src/chance.rs"]
mod chance;
mod example;
#[path = "../../../hearing/src/line.rs"]
mod line;
mod side;
mod tls;
mod udp;

use line::{Line, Nature};
use side::{ours, peer};
use std::cmp::Reverse;
use std::collections::BinaryHeap;
use std::time::{Duration, Instant};

/// 20 Mbit/s, 20 ms each way.
const QUIET: Nature = Nature {
    rate: 20_000_000,
    delay: 20_000,
    longest_wait: 100_000,
    loss: 0,
    reordering: 0,
    reordered_by: 0,
    interruption: 0,
    every: 0,
    marked_after: u64::MAX,
};
const LINES: [(&str, Nature); 4] = [
    ("quiet", QUIET),
    ("loss", Nature { loss: 20_000, ..QUIET }),
    ("reordering", Nature { reordering: 50_000, reordered_by: 3_000, ..QUIET }),
    ("marks", Nature { rate: 3_000_000, marked_after: 5_000, ..QUIET }),
];
/// What the sender asks for by ACK_FREQUENCY: T, the delay in microseconds, R.
type Rules = Option<(u32, Option<u64>, u32)>;
const RULES: [(&str, Rules); 4] = [
    ("none", None),
    ("T 1, R 1", Some((1, None, 1))),
    ("T 10, R 3, 40 ms", Some((10, Some(40_000), 3))),
    ("T 20, R 0, 60 ms", Some((20, Some(60_000), 0))),
];
const CONNECTIONS: u64 = 16;
const BYTES: usize = 300_000;

/// What came of a transfer: whole, closed, packets and ACKs of the receiving end, by cause where Lumbixet wrote them.
#[derive(Default)]
struct Came {
    whole: u64,
    closed: u64,
    packets: u64,
    acks: u64,
    causes: [u64; 6],
    bytes: u64,
    frames: [u64; 2],
    refused: u64,
}

/// A transfer in virtual time. `drive!` is written once for both receiving ends.
macro_rules! drive {
    ($name:ident, $receiving:ident, $after:expr) => {
        fn $name(tls: &tls::Configs, nature: Nature, rules: Rules, seed: u64, came: &mut Came) {
            let base = Instant::now();
            let at = |micros: u64| base + Duration::from_micros(micros);
            let addresses = ["127.0.0.1:1", "127.0.0.1:2"].map(|text| text.parse().expect("an address"));
            let mut sender = peer::Side::server(tls.server.clone(), 2 * seed, addresses[1], BYTES, rules);
            let mut receiver = $receiving::Side::client(tls.client.clone(), 2 * seed + 1, addresses[0], base);
            let (mut there, mut back) = (Line::new(nature, seed), Line::new(QUIET, seed));
            // Packets on their way: when, in which order, to the receiver or not.
            let mut flying: BinaryHeap<Reverse<(u64, u64, bool, Vec<u8>, Option<u8>)>> = BinaryHeap::new();
            let (mut now, mut count) = (0, 0);
            while now < 60_000_000 && !(receiver.whole && flying.is_empty()) {
                sender.goes_on(at(now));
                receiver.goes_on(at(now));
                while let Some(next) = sender.next(&mut there, now) {
                    count += 1;
                    flying.extend(next.map(|(time, data, ecn)| Reverse((time, count, true, data, ecn))));
                }
                while let Some(next) = receiver.next(&mut back, now) {
                    count += 1;
                    flying.extend(next.map(|(time, data, ecn)| Reverse((time, count, false, data, ecn))));
                }
                // rounded up, so that a timer has gone off at the microsecond that is named
                let micros = |instant: Instant| (instant.saturating_duration_since(base).as_nanos() as u64 + 999) / 1000;
                let timeouts = [sender.timeout(), receiver.timeout()].into_iter().flatten().map(micros);
                let Some(next) = timeouts.chain(flying.peek().map(|Reverse(first)| first.0)).min() else { break };
                now = next.max(now);
                while flying.peek().is_some_and(|Reverse(first)| first.0 <= now) {
                    let Some(Reverse((_, _, to_receiver, data, ecn))) = flying.pop() else { break };
                    if to_receiver {
                        receiver.arrives(at(now), &data, ecn);
                    } else {
                        sender.arrives(at(now), &data, ecn);
                    }
                }
            }
            came.whole += u64::from(receiver.whole && receiver.came == BYTES);
            came.closed += u64::from(receiver.closed.is_some() || sender.closed.is_some());
            came.packets += receiver.statistics().udp_rx.datagrams;
            came.acks += receiver.statistics().frame_tx.acks;
            let after: fn(&mut $receiving::Side, &mut Came) = $after;
            after(&mut receiver, came);
        }
    };
}

drive!(as_it_is, peer, |_, _| {});
drive!(with_lumbixet, ours, |receiver, came| {
    if let Some((_, connection)) = &mut receiver.connection {
        let acks = connection.acks();
        for (sum, more) in came.causes.iter_mut().zip(acks.written) {
            *sum += more;
        }
        came.bytes += acks.bytes;
        came.frames[0] += acks.frequency[0];
        came.frames[1] += acks.frequency[1];
        came.refused += acks.refused;
    }
});

fn table() {
    let tls = tls::configs();
    println!("{} connections a row, {BYTES} bytes each, virtual time; sender: quinn-proto 0.11.9 as it is", CONNECTIONS);
    println!("{:<12}{:<19}{:>6}{:>7}{:>9}{:>9}   by cause 1 to 5{:>17}{:>9}{:>9}", "line", "rules", "whole", "closed", "packets", "ACKs", "bytes", "frames", "quinn's");
    let mut connections = 0;
    for (line, nature) in LINES {
        for (rules, asked) in RULES {
            let (mut own, mut theirs) = (Came::default(), Came::default());
            for seed in 0..CONNECTIONS {
                with_lumbixet(&tls, nature, asked, seed, &mut own);
                as_it_is(&tls, nature, asked, seed, &mut theirs);
                connections += 1;
            }
            let causes: Vec<String> = own.causes[1..].iter().map(u64::to_string).collect();
            println!(
                "{line:<12}{rules:<19}{:>6}{:>7}{:>9}{:>9}   {:<24}{:>8}{:>9}{:>9}",
                own.whole, own.closed, own.packets, own.acks, causes.join(" "), own.bytes, own.frames[0], theirs.acks
            );
            assert_eq!((own.whole, own.closed, own.refused, own.frames[1]), (CONNECTIONS, 0, 0, 0), "a connection did not come to its end");
        }
    }
    println!("{connections} connections with Lumbixet: every transfer is whole, none was closed");
    example::run(&tls);
}

fn main() {
    match std::env::args().nth(1).as_deref() {
        None => table(),
        Some("udp") => udp::run(),
        Some(_) => {
            eprintln!("usage: lumbixet-live [udp]");
            std::process::exit(2);
        }
    }
}
