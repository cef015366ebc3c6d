//! What can happen in a hearing, as it is counted and drawn: a name, words, a shape and two colours for each.

/// How many kinds there are.
pub const KINDS: usize = 11;

pub const CAME: usize = 0;
pub const LATE: usize = 1;
pub const LOST: usize = 2;
pub const MARKED: usize = 3;
pub const REFUSED: usize = 4;
pub const WRITTEN: usize = 10;

/// An acknowledgment became due, by its cause from 1 to 5.
pub fn due(cause: u64) -> Option<usize> {
    (1..=5).contains(&cause).then_some(REFUSED + cause as usize)
}

pub struct Kind {
    /// For machines.
    pub name: &'static str,
    pub words: &'static str,
    /// The path of its mark, around 0 0.
    pub shape: &'static str,
    /// Whether the shape is filled, or drawn as lines.
    pub filled: bool,
    /// On light and on dark ground.
    pub light: &'static str,
    pub dark: &'static str,
}

const fn kind(
    name: &'static str,
    words: &'static str,
    look: (&'static str, bool),
    light: &'static str,
    dark: &'static str,
) -> Kind {
    Kind { name, words, shape: look.0, filled: look.1, light, dark }
}

/// In grey too, no two marks look alike.
pub const ALL: [Kind; KINDS] = [
    kind("came", "came in order", ("M-2.4 0A2.4 2.4 0 1 0 2.4 0A2.4 2.4 0 1 0-2.4 0Z", true), "#2563a8", "#6cb0ff"),
    kind("late", "came late, below the largest", ("M0-5L5 0L0 5L-5 0Z", true), "#a3278d", "#f08fdc"),
    kind("lost", "never came", ("M-4-4L4 4M4-4L-4 4", false), "#c81e1e", "#ff7b72"),
    kind("marked", "carried a congestion mark", ("M-5 0A5 5 0 1 0 5 0A5 5 0 1 0-5 0Z", false), "#b05e00", "#ffb454"),
    kind("refused", "refused", ("M-5-5H5V5H-5ZM-5 5L5-5", false), "#111111", "#f0f0f0"),
    kind(
        "due1",
        "the sender asked (IMMEDIATE_ACK)",
        ("M0-7L2-2L7-2L3 1.5L4.5 7L0 3.6L-4.5 7L-3 1.5L-7-2L-2-2Z", true),
        "#7b3fa0",
        "#d2a8ff",
    ),
    kind("due2", "count: more packets than the threshold", ("M-3-6H3L6 0L3 6H-3L-6 0Z", true), "#7a6000", "#e3c04a"),
    kind("due3", "order: packets are missing", ("M0-6.5L6.5 5.5H-6.5Z", true), "#c81e1e", "#ff7b72"),
    kind("due4", "congestion: a marked packet came", ("M-5-5H5V5H-5Z", true), "#b05e00", "#ffb454"),
    kind(
        "due5",
        "timer: the delay in force has passed",
        ("M-5.5 0A5.5 5.5 0 1 0 5.5 0A5.5 5.5 0 1 0-5.5 0Z", true),
        "#1b7f4d",
        "#56d68a",
    ),
    kind("written", "an acknowledgment was written", ("M0-9V9", false), "#222222", "#e6edf3"),
];
