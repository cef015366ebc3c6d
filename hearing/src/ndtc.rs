//! A sender under NDTC (000 and 002, draft-ageneau-ccwg-ndtc): the agent is the sender (4.2.1). Sections are those of the draft.
//!
//! Simplified here: how long a picture took to arrive comes beside the next ACK (control.rs, Receipt), in place of RTCP feedback; a
//! picture is lost in part when QUIC's packet threshold says so of one of its packets (5.3 goes by sequence numbers); the marks of
//! an ACK are counted to the newest picture that it acknowledges; silence is 250 ms without an ACK (4.5 says "significant").

use crate::chance::swing;
use crate::control::{Control, Leave, News, Sent, HIGHEST, PICTURE_EVERY};
use std::collections::BTreeMap;

const TFRAME: f64 = PICTURE_EVERY as f64; // microseconds, as all times here
const TRECV: f64 = 0.6 * TFRAME; // 5.1
const TSEND: f64 = 0.5 * TRECV;
const DELTA: f64 = 0.5 * TSEND;
const MIN_TARGET: f64 = 2000.0; // 4.6: 2,000 bytes every 40 ms are 400,000 bits a second
const MAX_TARGET: f64 = HIGHEST * TFRAME / 8_000_000.0;
const INIT_TARGET: f64 = MAX_TARGET / 2.0;
const ITERATIONS: u32 = 3;
const ALPHA: f64 = 40.0;
const EALPHA: f64 = 400.0;
const BETA: f64 = 0.7;
const LAMBDA: f64 = 0.04;
const KMARGIN: f64 = 0.25;
const SILENCE: u64 = 250_000;

/// A picture on its way.
struct Flight {
    first: Option<u64>,
    last: u64,
    bytes: f64,
    outer: f64,
    packets: u64,
    acknowledged: u64,
    lost: u64,
    marked: u64,
    took: Option<f64>,
}

#[derive(Default)]
struct Averages {
    count: f64,
    send: f64,
    receive: f64,
    send_variance: f64,
    receive_variance: f64,
    covariance: f64,
}

impl Averages {
    /// Appendix A.
    fn take(&mut self, send: f64, receive: f64) {
        self.count += 1.0;
        let weight = LAMBDA.max(1.0 / self.count);
        let (a, b) = (send - self.send, receive - self.receive);
        self.send += weight * a;
        self.receive += weight * b;
        self.send_variance = (1.0 - weight) * (self.send_variance + weight * a * a);
        self.receive_variance = (1.0 - weight) * (self.receive_variance + weight * b * b);
        self.covariance = (1.0 - weight) * (self.covariance + weight * a * b);
    }
}

pub struct Ndtc {
    seed: u64,
    flights: BTreeMap<u64, Flight>,
    averages: Averages,
    free_target: f64, // TARGET and SLOPE of the last picture without loss, before AIMD
    free_slope: f64,
    target: f64,
    slope: f64,
    csize: f64,
    ecn_average: f64,
    last_decrease: u64,
    last_ecn_decrease: u64,
}

impl Ndtc {
    pub fn new(seed: u64) -> Ndtc {
        Ndtc {
            seed,
            flights: BTreeMap::new(),
            averages: Averages::default(),
            free_target: INIT_TARGET,
            free_slope: 1.0,
            target: INIT_TARGET,
            slope: 1.0,
            csize: MAX_TARGET,
            ecn_average: 1.0,
            last_decrease: 0,
            last_ecn_decrease: 0,
        }
    }

    /// 4.3, Frame Dithering Available Capacity Estimation, and 4.4.
    fn estimate(&mut self, flight: &Flight, took: f64) {
        let length = flight.bytes - flight.outer; // 5.2: less the mean of the first and the last packet
        self.averages.take((flight.last - flight.first.unwrap_or(flight.last)) as f64 / length, took.min(3.0 * TFRAME) / length);
        let average = &self.averages;
        let slope = if average.send_variance > 0.0 { (average.covariance / average.send_variance).min(1.0) } else { 0.0 };
        let intercept = (average.receive - slope * average.send).max(0.0);
        let mut estimate = average.receive;
        for _ in 0..ITERATIONS {
            estimate = slope * estimate + intercept;
        }
        let both = average.send_variance * average.receive_variance;
        let margin = if both > 0.0 {
            KMARGIN * average.receive_variance.sqrt() * (1.0 - average.covariance * average.covariance / both)
        } else {
            0.0
        };
        self.free_target = (TRECV / (estimate + margin)).min(MAX_TARGET);
        self.free_slope = slope;
    }

    /// Appendix C, 4.5 and 4.6.
    fn congestion(&mut self, first_sent: u64, packets: u64, lost: u64, marked: u64, now: u64) {
        let most = self.free_target * TRECV / TSEND;
        let fraction = marked as f64 / packets.max(1) as f64;
        self.ecn_average += (fraction - self.ecn_average) / 16.0; // as a moving average: the draft's line has no old value in it
        if self.last_decrease <= first_sent {
            if lost > 0 {
                self.csize = self.csize.min(most) * BETA;
                self.last_decrease = now;
            } else if marked > 0 && self.last_ecn_decrease <= first_sent {
                self.csize = self.csize.min(most) * (1.0 - self.ecn_average * (1.0 - BETA));
                self.last_ecn_decrease = now;
            }
        }
        if self.last_decrease <= first_sent && self.csize < most {
            let more = if self.last_ecn_decrease <= self.last_decrease { ALPHA } else { EALPHA * (1.0 - fraction) };
            self.csize = (self.csize + more).min(most);
        }
        let congestion_target = self.csize.min(most);
        let congestion_slope = (1.0 - TSEND / TRECV * (most / congestion_target)).max(0.0) / (1.0 - TSEND / TRECV);
        self.slope = self.free_slope.min(congestion_slope);
        self.target = self.free_target.min(congestion_target).max(MIN_TARGET);
    }

    /// A picture of which every packet was acknowledged or lost is looked at, oldest first.
    fn settle(&mut self, now: u64) {
        let done: Vec<u64> =
            self.flights.iter().filter(|(_, f)| f.acknowledged + f.lost >= f.packets).map(|(picture, _)| *picture).collect();
        for picture in done {
            let Some(flight) = self.flights.remove(&picture) else { continue };
            match flight.took {
                Some(took) if flight.lost == 0 && flight.packets > 1 && flight.bytes >= MIN_TARGET => {
                    self.estimate(&flight, took)
                }
                _ => {}
            }
            self.congestion(flight.first.unwrap_or(flight.last), flight.packets, flight.lost, flight.marked, now);
        }
    }
}

impl Control for Ndtc {
    fn rate(&self) -> f64 {
        self.target * 8_000_000.0 / TFRAME
    }

    /// 4.7, the pacer.
    fn schedule(&mut self, picture: u64, bytes: u64, packets: u64, now: u64) -> (u64, u64) {
        let pace = self.slope * (TSEND + swing(self.seed, picture) * DELTA) + (1.0 - self.slope) * TRECV;
        let send = (pace * bytes as f64 / self.target).min(TFRAME);
        let delay = self.slope * (pace + self.slope * DELTA - send).max(0.0);
        let (size, outer) = (bytes as f64, bytes as f64 / packets as f64);
        let flight =
            Flight { first: None, last: now, bytes: size, outer, packets, acknowledged: 0, lost: 0, marked: 0, took: None };
        self.flights.insert(picture, flight);
        (delay as u64, send as u64)
    }

    fn may_leave(&self, _bytes: u64, _in_flight: u64, _now: u64) -> Leave {
        Leave::Now
    }

    /// 4.7: the duration is the one that was achieved.
    fn sent(&mut self, packet: Sent, _in_flight: u64) {
        if let Some(flight) = packet.picture.and_then(|picture| self.flights.get_mut(&picture)) {
            flight.first.get_or_insert(packet.time);
            flight.last = packet.time;
        }
    }

    fn heard(&mut self, news: &News, now: u64) {
        for receipt in news.receipts {
            if let Some(flight) = self.flights.get_mut(&receipt.picture) {
                flight.took = Some(receipt.took as f64);
            }
        }
        let mut newest = None;
        for (packets, lost) in [(news.acknowledged, false), (news.lost, true)] {
            for picture in packets.iter().filter_map(|packet| packet.picture) {
                if let Some(flight) = self.flights.get_mut(&picture) {
                    if lost {
                        flight.lost += 1;
                    } else {
                        flight.acknowledged += 1;
                        newest = newest.max(Some(picture));
                    }
                }
            }
        }
        if let Some(flight) = newest.and_then(|picture| self.flights.get_mut(&picture)) {
            flight.marked += news.marked;
        }
        self.settle(now);
    }

    /// 4.5: the sender decreases too where it gets no feedback for a significant duration.
    fn silent(&mut self, silence: u64, now: u64) {
        if silence >= SILENCE && now - self.last_decrease >= SILENCE {
            self.congestion(now, 1, 1, 0, now);
        }
    }
}
