//! What the sender's rate control hears and says: one side of it is SCReAMv2 (scream.rs), the other NDTC (ndtc.rs).

/// A packet that was sent: when, how large, and of which picture it is a part; sound and repeated sound have none.
#[derive(Clone, Copy)]
pub struct Sent {
    pub number: u64,
    pub time: u64,
    pub bytes: u64,
    pub picture: Option<u64>,
}

/// How long it took a picture to arrive, from its first packet to its last: what the receiving host says beside an ACK, since a QUIC
/// ACK has no arrival times.
#[derive(Clone, Copy)]
pub struct Receipt {
    pub picture: u64,
    pub took: u64,
}

/// What one ACK told.
pub struct News<'a> {
    pub acknowledged: &'a [Sent],
    pub lost: &'a [Sent],
    /// Packets that arrived with CE since the ACK before.
    pub marked: u64,
    /// The newest round trip without the delay that the ACK names, the smoothed one and the smallest, in microseconds.
    pub rtt: f64,
    pub smoothed: f64,
    pub smallest: f64,
    /// Bytes sent and not yet below the largest acknowledged number.
    pub in_flight: u64,
    pub receipts: &'a [Receipt],
}

pub trait Control {
    /// The encoder's rate now, in bits a second.
    fn rate(&self) -> f64;
    /// A picture is ready: when its first packet leaves, and how long sending takes, both in microseconds from now.
    fn schedule(&mut self, picture: u64, bytes: u64, packets: u64, now: u64) -> (u64, u64);
    /// When a packet of a picture that is scheduled may leave: now, at a time, or never before an ACK is heard.
    fn may_leave(&self, bytes: u64, in_flight: u64, now: u64) -> Leave;
    /// A packet of a picture left.
    fn sent(&mut self, packet: Sent, in_flight: u64);
    fn heard(&mut self, news: &News, now: u64);
    /// Called every 10 ms: how long no ACK has been heard while something was outstanding.
    fn silent(&mut self, silence: u64, now: u64);
}

pub enum Leave {
    Now,
    At(u64),
    AfterAnAck,
}

/// The encoder's lowest and highest rate, in bits a second, and the time from picture to picture, in microseconds.
pub const LOWEST: f64 = 400_000.0;
pub const HIGHEST: f64 = 2_500_000.0;
pub const PICTURE_EVERY: u64 = 40_000;
