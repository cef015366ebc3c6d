//! The marks that packets carry (ECN), and how many of each came.

use crate::raw;

/// The mark that a packet carried: the ECN field of its IP header (RFC 3168, section 5).
#[derive(Clone, Copy, Debug, Default, PartialEq, Eq, Hash)]
pub enum Mark {
    /// No mark: the transport is not ECN-capable.
    #[default]
    None,
    /// ECT(1).
    Ect1,
    /// ECT(0).
    Ect0,
    /// Congestion experienced.
    Ce,
}

impl Mark {
    /// The mark in a traffic class byte as the socket tells it, of which the two low bits count.
    #[must_use]
    pub const fn from_traffic_class(byte: u8) -> Mark {
        match byte & 3 {
            0 => Mark::None,
            1 => Mark::Ect1,
            2 => Mark::Ect0,
            _ => Mark::Ce,
        }
    }

    /// The ECN field, 0 to 3.
    #[must_use]
    pub const fn ecn(self) -> u64 {
        match self {
            Mark::None => 0,
            Mark::Ect1 => 1,
            Mark::Ect0 => 2,
            Mark::Ce => 3,
        }
    }
}

/// The counts of an ACK frame of type 03: how many packets arrived at its writer so far with each mark.
#[derive(Clone, Copy, Debug, Default, PartialEq, Eq)]
pub struct Counts {
    /// With ECT(0).
    pub ect0: u64,
    /// With ECT(1).
    pub ect1: u64,
    /// With CE.
    pub ce: u64,
}

/// How many accepted packets carried each mark. Each total stays at [`LARGEST`](crate::LARGEST).
#[derive(Clone, Copy, Debug, Default, PartialEq, Eq)]
pub struct Totals {
    /// What an ACK frame of type 03 tells.
    pub counts: Counts,
    /// Without a mark.
    pub unmarked: u64,
}

impl Totals {
    pub(crate) fn of(record: &raw::Receiver) -> Totals {
        let raw::Receiver { total_ect0: ect0, total_ect1: ect1, total_ce: ce, total_unmarked: unmarked, .. } = *record;
        Totals { counts: Counts { ect0, ect1, ce }, unmarked }
    }
}
