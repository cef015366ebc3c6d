//! One end of a connection over quinn-proto, without sockets and clocks. There are two crates of it in this program, the one as it is
//! and the one in which Lumbixet acknowledges, and their types differ: so this is written once and made for each.

/// What one end does when it is told the time: what it sends, and what came of it so far.
macro_rules! side {
    ($name:ident, $quinn:ident) => {
        pub mod $name {
            use crate::line::{Fate, Line};
            use bytes::{Bytes, BytesMut};
            use std::collections::VecDeque;
            use std::net::SocketAddr;
            use std::sync::Arc;
            use std::time::{Duration, Instant};
            use $quinn::*;

            pub struct Side {
                endpoint: Endpoint,
                pub connection: Option<(ConnectionHandle, Connection)>,
                peer: SocketAddr,
                stream: Option<StreamId>,
                sends: bool,
                left: usize,
                pub connected: bool,
                pub came: usize,
                pub whole: bool,
                pub datagrams: usize,
                pub closed: Option<String>,
                out: VecDeque<(Vec<u8>, Option<u8>)>,
            }

            /// The rules that a sender asks for: ack-eliciting threshold, delay in microseconds or its own, reordering threshold.
            pub fn transport(asked: Option<(u32, Option<u64>, u32)>) -> Arc<TransportConfig> {
                let mut config = TransportConfig::default();
                config.mtu_discovery_config(None).max_idle_timeout(None);
                if let Some((threshold, delay, reordering)) = asked {
                    let mut frequency = AckFrequencyConfig::default();
                    frequency.ack_eliciting_threshold(threshold.into()).reordering_threshold(reordering.into());
                    frequency.max_ack_delay(delay.map(Duration::from_micros));
                    config.ack_frequency_config(Some(frequency));
                }
                Arc::new(config)
            }

            fn endpoint(seed: u64, server: Option<Arc<ServerConfig>>) -> Endpoint {
                let mut bytes = [7; 32];
                bytes[..8].copy_from_slice(&seed.to_be_bytes());
                Endpoint::new(Arc::new(EndpointConfig::default()), server, false, Some(bytes))
            }

            impl Side {
                fn new(endpoint: Endpoint, peer: SocketAddr, left: usize) -> Side {
                    let (connection, stream, out) = (None, None, VecDeque::new());
                    Side { endpoint, connection, peer, stream, sends: left > 0, left, connected: false, came: 0, whole: false, datagrams: 0, closed: None, out }
                }

                /// The sending end: it writes so many bytes as soon as the connection stands.
                pub fn server(tls: Arc<rustls::ServerConfig>, seed: u64, peer: SocketAddr, bytes: usize, asked: Option<(u32, Option<u64>, u32)>) -> Side {
                    let crypto = crypto::rustls::QuicServerConfig::try_from(tls).expect("TLS 1.3");
                    let mut config = ServerConfig::with_crypto(Arc::new(crypto));
                    config.transport_config(transport(asked));
                    Side::new(endpoint(seed, Some(Arc::new(config))), peer, bytes)
                }

                /// The receiving end, which connects.
                pub fn client(tls: Arc<rustls::ClientConfig>, seed: u64, peer: SocketAddr, now: Instant) -> Side {
                    let crypto = crypto::rustls::QuicClientConfig::try_from(tls).expect("TLS 1.3");
                    let mut config = ClientConfig::new(Arc::new(crypto));
                    config.transport_config(transport(None));
                    let mut side = Side::new(endpoint(seed, None), peer, 0);
                    side.connection = Some(side.endpoint.connect(now, config, peer, "hearing").expect("it connects"));
                    side
                }

                /// A datagram arrives.
                pub fn arrives(&mut self, now: Instant, data: &[u8], ecn: Option<u8>) {
                    let (mut answer, data) = (vec![], BytesMut::from(data));
                    let ecn = ecn.and_then(EcnCodepoint::from_bits);
                    match self.endpoint.handle(now, self.peer, None, ecn, data, &mut answer) {
                        Some(DatagramEvent::ConnectionEvent(_, event)) => {
                            if let Some((_, connection)) = &mut self.connection {
                                connection.handle_event(event);
                            }
                        }
                        Some(DatagramEvent::NewConnection(incoming)) => {
                            self.connection = self.endpoint.accept(incoming, now, &mut answer, None).ok();
                        }
                        Some(DatagramEvent::Response(_)) | None => {}
                    }
                }

                /// Goes on with all that can be done now.
                pub fn goes_on(&mut self, now: Instant) {
                    let Some((handle, connection)) = &mut self.connection else { return };
                    if connection.poll_timeout().is_some_and(|at| at <= now) {
                        connection.handle_timeout(now);
                    }
                    while let Some(event) = connection.poll_endpoint_events() {
                        if let Some(event) = self.endpoint.handle_event(*handle, event) {
                            connection.handle_event(event);
                        }
                    }
                    while let Some(event) = connection.poll() {
                        match event {
                            Event::Connected => self.connected = true,
                            Event::ConnectionLost { reason } => self.closed = Some(reason.to_string()),
                            Event::DatagramReceived => {
                                while connection.datagrams().recv().is_some() {
                                    self.datagrams += 1;
                                }
                            }
                            _ => {}
                        }
                    }
                    while let Some(id) = connection.streams().accept(Dir::Uni) {
                        self.stream = Some(id);
                    }
                    if self.connected && self.left > 0 {
                        let id = *self.stream.get_or_insert_with(|| connection.streams().open(Dir::Uni).expect("a stream is allowed"));
                        while self.left > 0 {
                            let Ok(written) = connection.send_stream(id).write(&[0x5a; 4096][..self.left.min(4096)]) else { break };
                            self.left -= written;
                        }
                        if self.left == 0 {
                            connection.send_stream(id).finish().expect("it is open");
                        }
                    } else if let (Some(id), false, false) = (self.stream, self.sends, self.whole) {
                        let mut receive = connection.recv_stream(id);
                        let chunks = receive.read(true);
                        if let Ok(mut chunks) = chunks {
                            loop {
                                match chunks.next(usize::MAX) {
                                    Ok(Some(chunk)) => self.came += chunk.bytes.len(),
                                    Ok(None) => break self.whole = true,
                                    Err(_) => break,
                                }
                            }
                            let _ = chunks.finalize();
                        }
                    }
                    let mut buffer = vec![];
                    while let Some(transmit) = connection.poll_transmit(now, 1, &mut buffer) {
                        self.out.push_back((buffer[..transmit.size].to_vec(), transmit.ecn.map(|ecn| ecn as u8)));
                        buffer.clear();
                    }
                }

                /// Sends a datagram of a byte, in a packet of its own.
                pub fn datagram(&mut self, now: Instant) {
                    if let Some((_, connection)) = &mut self.connection {
                        connection.datagrams().send(Bytes::from_static(b"."), true).expect("datagrams are allowed");
                    }
                    self.goes_on(now);
                }

                /// When it wants to be told the time again.
                pub fn timeout(&mut self) -> Option<Instant> {
                    self.connection.as_mut().and_then(|(_, connection)| connection.poll_timeout())
                }

                /// The next packet that leaves, as it is.
                pub fn leaves(&mut self) -> Option<(Vec<u8>, Option<u8>)> {
                    self.out.pop_front()
                }

                /// The next packet that leaves, as the line brings it: when it arrives, in microseconds, and with which mark.
                pub fn next(&mut self, line: &mut Line, now: u64) -> Option<Option<(u64, Vec<u8>, Option<u8>)>> {
                    let (data, ecn) = self.out.pop_front()?;
                    Some(match line.send(now, data.len() as u64) {
                        Fate::Lost => None,
                        Fate::Arrives { at, marked } => Some((at, data, if marked { Some(3) } else { ecn })),
                    })
                }

                pub fn statistics(&self) -> ConnectionStats {
                    self.connection.as_ref().map(|(_, connection)| connection.stats()).unwrap_or_default()
                }
            }
        }
    };
}

side!(peer, quinn_proto);
side!(ours, lumbixet_quinn_proto);
