//! The draft's example of a reordering threshold of 3 (004; document 01, P4) on a connection: packets 0 to 10, of which 2, 6 and 7 are
//! lost, and which arrivals are acknowledged at once.

use crate::side::{ours, peer};
use crate::tls;
use std::time::{Duration, Instant};

const LOST: [u64; 3] = [2, 6, 7];

/// The arrivals that are acknowledged at once, and how many packet numbers went by. Written once for both receiving ends.
macro_rules! acknowledged {
    ($name:ident, $receiving:ident, $end:expr) => {
        fn $name(tls: &tls::Configs, seed: u64) -> (Vec<u64>, u64) {
            let end: fn(&mut $receiving::Side) -> u64 = $end;
            let base = Instant::now();
            let addresses = ["127.0.0.1:1", "127.0.0.1:2"].map(|text| text.parse().expect("an address"));
            let mut sender = peer::Side::server(tls.server.clone(), 2 * seed, addresses[1], 0, Some((1000, Some(60_000), 3)));
            let mut receiver = $receiving::Side::client(tls.client.clone(), 2 * seed + 1, addresses[0], base);
            let mut now = base;
            // The handshake, the sender's rules, eight packets in order, and whatever is still to be acknowledged.
            for turn in 0..2000 {
                now += Duration::from_millis(1);
                if (1000..1008).contains(&turn) {
                    sender.datagram(now);
                }
                sender.goes_on(now);
                receiver.goes_on(now);
                while let Some((data, _)) = sender.leaves() {
                    receiver.arrives(now, &data, None);
                }
                while let Some((data, _)) = receiver.leaves() {
                    sender.arrives(now, &data, None);
                }
            }
            let (mut found, before) = (vec![], end(&mut receiver));
            for number in 0..=10 {
                now += Duration::from_micros(100);
                sender.datagram(now);
                let packets: Vec<_> = std::iter::from_fn(|| sender.leaves()).collect();
                assert_eq!(packets.len(), 1, "a datagram is a packet");
                if LOST.contains(&number) {
                    continue;
                }
                receiver.arrives(now, &packets[0].0, None);
                receiver.goes_on(now);
                if receiver.leaves().is_some() {
                    found.push(number);
                }
            }
            (found, end(&mut receiver) - before)
        }
    };
}

acknowledged!(with_lumbixet, ours, |side| side.connection.as_mut().map_or(0, |(_, c)| c.acks().receiver().record().end));
acknowledged!(as_it_is, peer, |_| 0);

pub fn run(tls: &tls::Configs) {
    // The first seed with which the sender leaves out no packet number among these, as it does at times to find receivers that guess.
    let seed = (0..).find(|seed| with_lumbixet(tls, *seed).1 == 11).expect("there is one");
    let (own, theirs) = (with_lumbixet(tls, seed).0, as_it_is(tls, seed).0);
    println!("the draft's example of R 3, arrivals 0 1 3 4 5 8 9 10: acknowledged at once at {own:?}; quinn's own rule at {theirs:?}");
    assert_eq!(own, [5, 9, 10], "document 01, P4");
}
