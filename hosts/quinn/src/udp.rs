//! The transfer over UDP on the loopback interface, two threads with a socket each.

use crate::side::{ours, peer};
use crate::tls;
use std::net::UdpSocket;
use std::time::{Duration, Instant};

const BYTES: usize = 5_000_000;

/// Runs an end until it says that it is done or ten seconds have passed: sends what leaves, and hears what comes, marks left out.
macro_rules! until {
    ($side:ident, $socket:ident, $to:expr, $done:expr) => {{
        let (began, mut buffer) = (Instant::now(), [0; 2000]);
        while began.elapsed() < Duration::from_secs(10) && !$done {
            $side.goes_on(Instant::now());
            while let Some((data, _)) = $side.leaves() {
                let _ = $socket.send_to(&data, $to);
            }
            let wait = $side.timeout().map_or(5000, |at| at.saturating_duration_since(Instant::now()).as_micros() as u64);
            let _ = $socket.set_read_timeout(Some(Duration::from_micros(wait.clamp(100, 5000))));
            if let Ok((length, _)) = $socket.recv_from(&mut buffer) {
                $side.arrives(Instant::now(), &buffer[..length], None);
            }
        }
    }};
}

pub fn run() {
    let tls = tls::configs();
    let sockets = [0, 0].map(|_| UdpSocket::bind("127.0.0.1:0").expect("a socket"));
    let addresses = [0, 1].map(|place| sockets[place as usize].local_addr().expect("its address"));
    let [sending, receiving] = sockets;
    let server = tls.server.clone();
    let thread = std::thread::spawn(move || {
        let mut side = peer::Side::server(server, 1, addresses[1], BYTES, Some((10, Some(20_000), 3)));
        until!(side, sending, addresses[1], side.closed.is_some());
    });
    let began = Instant::now();
    let mut side = ours::Side::client(tls.client.clone(), 2, addresses[0], began);
    until!(side, receiving, addresses[0], side.whole);
    let took = began.elapsed();
    let statistics = side.statistics();
    let (whole, came) = (side.whole, side.came);
    if let Some((_, connection)) = &mut side.connection {
        let acks = connection.acks();
        println!("over UDP on the loopback interface: {came} bytes, whole: {whole}, {:.0} ms", took.as_secs_f64() * 1000.0);
        println!("  {} packets came, {} ACKs of {} bytes went back, by cause 1 to 5: {:?}", statistics.udp_rx.datagrams, statistics.frame_tx.acks, acks.bytes, &acks.written[1..]);
        connection.close(Instant::now(), 0u32.into(), b"done".as_slice().into());
    }
    side.goes_on(Instant::now());
    while let Some((data, _)) = side.leaves() {
        let _ = receiving.send_to(&data, addresses[0]);
    }
    let _ = thread.join();
}
