//! A sender under SCReAMv2 (001, draft-johansson-ccwg-rfc8298bis-screamv2-07). Section names are those of the draft.
//!
//! Simplified here: one stream; the queue delay is the newest round trip less the smallest one, since a QUIC ACK has no arrival
//! times ("Detecting Increased Queue Delay" asks for one-way delays); no compensation for competing flows, no jitter filter and no
//! clock drift (each optional or about other traffic); classic ECN, not L4S; no reordering window beyond QUIC's packet threshold.

use crate::control::{Control, Leave, News, Sent, HIGHEST, LOWEST, PICTURE_EVERY};

const VIRTUAL_RTT: f64 = 25_000.0; // "Reference Window Update": 0.025 s; all times here are in microseconds
const QDELAY_TARGET: f64 = 60_000.0; // QDELAY_TARGET_LO
const QDELAY_AVG_G: f64 = 0.25;
const MIN_REF_WND: f64 = 3000.0;
const BYTES_IN_FLIGHT_HEAD_ROOM: f64 = 1.5;
const BETA_LOSS: f64 = 0.7;
const BETA_ECN: f64 = 0.8;
const MSS: f64 = 1200.0;
const POST_CONGESTION_DELAY_RTT: f64 = 100.0;
const MUL_INCREASE_FACTOR: f64 = 0.02;
const REF_WND_OVERHEAD_MAX: f64 = 3.0; // qdelay_dev_norm is 0 without the jitter filter
const RATE_PACE_MIN: f64 = 50_000.0;
const PACKET_PACING_HEADROOM: f64 = 1.5;
const MAX_RELAXED_PACING_FACTOR: f64 = 4.0;
const RELAXED_PACING_LIMIT_LOW: f64 = 0.8;
const PACKET_OVERHEAD: f64 = 20.0;
const RATE_ADJUST_GAIN: f64 = 1.0 / 16.0;
const FRAME_SIZE_DEV_ALPHA: f64 = 1.0 / 64.0;

pub struct Scream {
    ref_wnd: f64,
    ref_wnd_i: f64,
    qdelay_avg: f64,
    last_qdelay_avg: f64,
    last_congestion: f64,
    last_reaction: f64,
    last_ref_wnd_i: f64,
    most_in_flight: f64,
    most_in_flight_before: f64,
    round_began: f64,
    loss_detected: bool,
    marked: bool,
    rate: f64,
    rate_adjust_factor: f64,
    frame_size_dev: f64,
    next_at: u64,
    smoothed: f64,
}

impl Scream {
    pub fn new() -> Scream {
        Scream {
            ref_wnd: 8.0 * MIN_REF_WND,
            ref_wnd_i: 1.0,
            qdelay_avg: 0.0,
            last_qdelay_avg: 0.0,
            last_congestion: 0.0,
            last_reaction: 0.0,
            last_ref_wnd_i: 0.0,
            most_in_flight: 0.0,
            most_in_flight_before: 0.0,
            round_began: 0.0,
            loss_detected: false,
            marked: false,
            rate: LOWEST,
            rate_adjust_factor: 0.0,
            frame_size_dev: 0.0,
            next_at: 0,
            smoothed: 100_000.0,
        }
    }

    /// "Detecting Increased Queue Delay": slow attack, fast decay.
    fn take_queue_delay(&mut self, qdelay: f64, now: f64) {
        if now - self.last_qdelay_avg >= VIRTUAL_RTT.min(self.smoothed) {
            self.qdelay_avg =
                if qdelay < self.qdelay_avg { qdelay } else { QDELAY_AVG_G * qdelay + (1.0 - QDELAY_AVG_G) * self.qdelay_avg };
            self.last_qdelay_avg = now;
        }
    }

    /// How near the window is to where congestion came last ("Reference Window Reduction", scl_t).
    fn near_the_last(&self) -> f64 {
        let scale = 8.0 * (self.ref_wnd - self.ref_wnd_i) / self.ref_wnd_i;
        (scale * scale).clamp(0.1, 1.0)
    }

    /// "Reference Window Reduction".
    fn reduce(&mut self, now: f64) {
        if self.loss_detected || self.marked {
            self.last_congestion = now;
        }
        if now - self.last_reaction < VIRTUAL_RTT.min(self.smoothed) {
            return;
        }
        let virtual_mark = self.qdelay_avg > QDELAY_TARGET / 2.0;
        if !(self.loss_detected || self.marked || virtual_mark) {
            return;
        }
        if now - self.last_ref_wnd_i > 10.0 * self.smoothed {
            self.last_ref_wnd_i = now;
            self.ref_wnd_i = self.ref_wnd;
        }
        if self.loss_detected {
            self.ref_wnd *= BETA_LOSS;
        } else if self.marked {
            self.ref_wnd *= BETA_ECN;
        } else {
            let alpha = ((self.qdelay_avg - QDELAY_TARGET / 2.0) / (QDELAY_TARGET / 2.0)).clamp(0.0, 1.0);
            self.ref_wnd *= 1.0 - alpha / 2.0 / (self.smoothed / VIRTUAL_RTT).max(1.0);
        }
        self.ref_wnd = self.ref_wnd.max(MIN_REF_WND);
        self.last_reaction = now;
        (self.loss_detected, self.marked) = (false, false);
    }

    /// "Reference Window Increase".
    fn increase(&mut self, bytes_newly_acked: f64, now: f64) {
        let near = self.near_the_last();
        let since = (now - self.last_congestion) / (POST_CONGESTION_DELAY_RTT * VIRTUAL_RTT.max(self.smoothed));
        let mut increment = bytes_newly_acked * (MSS / self.ref_wnd).min(1.0);
        increment *= (self.smoothed / VIRTUAL_RTT).min(1.0) * near.max(0.25);
        increment *= 1.0 + MUL_INCREASE_FACTOR * self.ref_wnd / MSS * since.clamp(0.0, 1.0) * near;
        let most = MSS + self.most_in_flight.max(self.most_in_flight_before) * BYTES_IN_FLIGHT_HEAD_ROOM;
        if self.ref_wnd + increment <= most && self.rate < HIGHEST {
            self.ref_wnd += increment;
        }
    }

    /// "Media Rate Control".
    fn set_rate(&mut self) {
        let mut scale = 1.0 - ((MSS / self.ref_wnd).min(1.0) - 0.1).clamp(0.0, 0.2);
        scale *= MSS / (MSS + PACKET_OVERHEAD);
        scale /= 1.2 + self.rate_adjust_factor + self.frame_size_dev;
        self.rate = (scale * 8_000_000.0 * self.ref_wnd / self.smoothed).clamp(LOWEST, HIGHEST);
    }
}

impl Control for Scream {
    fn rate(&self) -> f64 {
        self.rate
    }

    /// Packets wait in the queue and leave by window and pace. Of a new picture the sizes' deviation is kept ("Media Rate Control").
    fn schedule(&mut self, _picture: u64, bytes: u64, _packets: u64, now: u64) -> (u64, u64) {
        let period = PICTURE_EVERY as f64;
        let waits = self.next_at.saturating_sub(now) as f64;
        self.rate_adjust_factor = (self.rate_adjust_factor + (waits - period / 4.0) / period * RATE_ADJUST_GAIN).clamp(0.0, 0.5);
        let nominal = self.rate * period / 8_000_000.0;
        let deviation = ((bytes as f64 - nominal) / nominal).max(0.0);
        self.frame_size_dev = ((1.0 - FRAME_SIZE_DEV_ALPHA) * self.frame_size_dev + FRAME_SIZE_DEV_ALPHA * deviation).min(0.2);
        (0, 0)
    }

    /// "Send Window Calculation" and "Packet Pacing".
    fn may_leave(&self, bytes: u64, in_flight: u64, now: u64) -> Leave {
        if (in_flight + bytes) as f64 > self.ref_wnd * REF_WND_OVERHEAD_MAX {
            Leave::AfterAnAck
        } else if now < self.next_at {
            Leave::At(self.next_at)
        } else {
            Leave::Now
        }
    }

    fn sent(&mut self, packet: Sent, in_flight: u64) {
        self.most_in_flight = self.most_in_flight.max(in_flight as f64);
        let relaxed = (self.rate / HIGHEST - RELAXED_PACING_LIMIT_LOW) / (1.0 - RELAXED_PACING_LIMIT_LOW);
        let scale = (1.0 - relaxed.min(1.0)).max(1.0 / MAX_RELAXED_PACING_FACTOR).min(1.0);
        let pace = self.rate.max(RATE_PACE_MIN) * PACKET_PACING_HEADROOM / scale;
        self.next_at = packet.time + (packet.bytes as f64 * 8_000_000.0 / pace) as u64;
    }

    fn heard(&mut self, news: &News, now: u64) {
        let now = now as f64;
        self.smoothed = news.smoothed;
        if now - self.round_began >= self.smoothed {
            (self.most_in_flight_before, self.most_in_flight, self.round_began) =
                (self.most_in_flight, news.in_flight as f64, now);
        }
        self.loss_detected |= !news.lost.is_empty();
        self.marked |= news.marked > 0;
        self.take_queue_delay((news.rtt - news.smallest).max(0.0), now);
        self.reduce(now);
        // Lost data units are counted too ("Status Update on Receiving Feedback"); marked ones are left out.
        let bytes: u64 = news.acknowledged.iter().chain(news.lost).map(|packet| packet.bytes).sum();
        self.increase((bytes as f64 - news.marked as f64 * MSS).max(0.0), now);
        self.set_rate();
    }

    /// The window holds the sender back by itself: nothing leaves above it.
    fn silent(&mut self, _silence: u64, _now: u64) {}
}
