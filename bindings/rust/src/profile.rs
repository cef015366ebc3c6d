//! The two profiles of a report: their records and their metrics.

/// Which rules a report follows. The reader is told; the writer sees it by the size of the records.
#[derive(Clone, Copy, Debug, Default, PartialEq, Eq, Hash)]
pub enum Profile {
    /// 1: records of 16 bytes, rising by object; up to 4 metrics, of the four types that have names.
    #[default]
    One,
    /// 2: records of 24 bytes with the object's group, rising by group, then object; up to 8 metrics of any even type.
    Two,
}

impl Profile {
    /// The profile of a number; `None` for another than 1 or 2.
    #[must_use]
    pub fn from_number(number: u64) -> Option<Profile> {
        [Profile::One, Profile::Two].into_iter().find(|profile| profile.number() == number)
    }

    /// 1 or 2.
    #[must_use]
    pub fn number(self) -> u64 {
        match self {
            Profile::One => 1,
            Profile::Two => 2,
        }
    }

    /// How many bytes a record takes.
    #[must_use]
    pub fn record_size(self) -> usize {
        match self {
            Profile::One => 16,
            Profile::Two => 24,
        }
    }
}

/// A record as its profile has it: `[u8; 16]` in profile 1, `[u8; 24]` in profile 2.
pub trait Record: bytes::Only {
    /// The profile that has such records.
    const PROFILE: Profile;
}

impl Record for [u8; 16] {
    const PROFILE: Profile = Profile::One;
}

impl Record for [u8; 24] {
    const PROFILE: Profile = Profile::Two;
}

/// No other type is a record.
mod bytes {
    pub trait Only {}
    impl Only for [u8; 16] {}
    impl Only for [u8; 24] {}
}

/// The metrics of a report, each a type and a number. How many there may be, and which types, the profile says; the writer
/// judges it.
#[derive(Clone, Copy, Debug, Default, PartialEq, Eq)]
pub struct Metrics {
    count: u64,
    kinds: [u64; 8],
    values: [u64; 8],
}

impl Metrics {
    /// Remaining time until playback stalls, in milliseconds.
    pub const PLAYOUT_AHEAD_MS: u64 = 0x02;
    /// Estimated bandwidth at the receiver, in kilobits per second.
    pub const ESTIMATED_BANDWIDTH_KBPS: u64 = 0x04;
    /// The receiver's smoothed round-trip time, in microseconds.
    pub const PEER_RTT_US: u64 = 0x10;
    /// The receiver's packet loss rate within the interval, per mille.
    pub const PEER_LOSS_RATE: u64 = 0x12;

    /// These types with their numbers, in this order; types are to rise. Of more than 8 the writer refuses the count.
    #[must_use]
    pub fn of(pairs: &[(u64, u64)]) -> Metrics {
        let mut metrics = Metrics { count: pairs.len() as u64, ..Metrics::default() };
        for (place, (kind, value)) in pairs.iter().take(8).enumerate() {
            metrics.kinds[place] = *kind;
            metrics.values[place] = *value;
        }
        metrics
    }

    /// Each type with its number, those without a name here too.
    pub fn iter(&self) -> impl Iterator<Item = (u64, u64)> + '_ {
        self.kinds.iter().copied().zip(self.values.iter().copied()).take(self.count.min(8) as usize)
    }

    /// The number of a type, where the report has it.
    #[must_use]
    pub fn get(&self, kind: u64) -> Option<u64> {
        self.iter().find(|(own, _)| *own == kind).map(|(_, value)| value)
    }

    pub(crate) fn parts(&self) -> (u64, [u64; 8], [u64; 8]) {
        (self.count, self.kinds, self.values)
    }

    pub(crate) fn from_parts(count: u64, kinds: &[u64; 8], values: &[u64; 8]) -> Metrics {
        Metrics { count, kinds: *kinds, values: *values }
    }
}
