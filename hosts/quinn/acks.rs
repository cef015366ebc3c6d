//! The acknowledgments of the 1-RTT space: Lumbixet decides when one is due, and writes it.

use crate::{EcnCodepoint, Instant, TransportError};
use lumbixet::{Frequency, Heard, Mark, Micros, Millis, Packet, Receiver, Refusal};

/// Lumbixet's record of a connection's 1-RTT space, and what it has answered so far.
pub struct Acks {
    receiver: Receiver,
    base: Instant,
    mark: Mark,
    /// ACK frames written, by cause.
    pub written: [u64; 6],
    /// Bytes of these frames.
    pub bytes: u64,
    /// ACK_FREQUENCY frames that changed the record, and stale ones.
    pub frequency: [u64; 2],
    /// Packets refused with 6 or 7.
    pub refused: u64,
}

impl Acks {
    pub(super) fn new(base: Instant) -> Self {
        // max_ack_delay and min_ack_delay as this crate's transport parameters announce them.
        let receiver = Receiver::open(1, 1, Millis(25), Micros(1000)).expect("the usual opening");
        Self { receiver, base, mark: Mark::None, written: [0; 6], bytes: 0, frequency: [0; 2], refused: 0 }
    }

    fn micros(&self, now: Instant) -> Micros {
        Micros(now.saturating_duration_since(self.base).as_micros() as u64)
    }

    pub(super) fn marked(&mut self, ecn: Option<EcnCodepoint>) {
        self.mark = ecn.map_or(Mark::None, |x| Mark::from_traffic_class(x as u8));
    }

    /// Whether the packet's frames are to be looked at.
    pub(super) fn packet(&mut self, number: u64, now: Instant, eliciting: bool) -> bool {
        let packet = Packet { number, time: self.micros(now), eliciting, mark: self.mark };
        let taken = self.receiver.packet(packet).is_ok();
        self.refused += u64::from(!taken);
        taken
    }

    pub(super) fn threshold(&mut self, frame: Frequency) -> Result<(), TransportError> {
        match self.receiver.threshold(frame) {
            Ok(Heard::Changed) => self.frequency[0] += 1,
            Ok(Heard::Stale) => self.frequency[1] += 1,
            Err(Refusal::Delay) => return Err(TransportError::PROTOCOL_VIOLATION("requested max ack delay")),
            Err(_) => return Err(TransportError::FRAME_ENCODING_ERROR("ACK_FREQUENCY")),
        }
        Ok(())
    }

    pub(super) fn immediate(&mut self) {
        self.receiver.immediate().expect("its packet was received");
    }

    pub(super) fn timer(&mut self, now: Instant) {
        self.receiver.timer(self.micros(now)).expect("a record that only the calls have changed");
    }

    pub(super) fn due(&self) -> bool {
        self.receiver.cause().is_some()
    }

    pub(super) fn wake(&self) -> Option<Instant> {
        self.receiver.wake().map(|at| self.base + std::time::Duration::from_micros(at.0))
    }

    /// Writes the frame behind `buf`, and gives its largest number. Nothing where nothing was received, or there is no room.
    pub(super) fn write(&mut self, now: Instant, counts: bool, buf: &mut Vec<u8>, room: usize) -> Option<u64> {
        let (cause, time, mut frame) = (self.receiver.record().cause, self.micros(now), [0; lumbixet::ACK_ROOM]);
        let frame = &mut frame[..room.min(lumbixet::ACK_ROOM)];
        let wrote = match counts {
            true => self.receiver.write_with_counts(time, frame),
            false => self.receiver.write(time, frame),
        };
        let bytes = wrote.ok()?;
        buf.extend_from_slice(bytes);
        self.written[cause as usize] += 1;
        self.bytes += bytes.len() as u64;
        Some(self.receiver.record().acknowledged - 1)
    }

    pub(super) fn confirm(&mut self, largest: u64) {
        self.receiver.confirm(largest).expect("an ACK of ours had that number");
    }

    /// The record.
    pub fn receiver(&self) -> &Receiver {
        &self.receiver
    }
}
