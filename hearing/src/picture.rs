//! The picture: the encoder's rate and the sound over time, the receiver as it is above and the one of the complaint below.

use crate::control::{HIGHEST, PICTURE_EVERY};
use crate::hearing::{Outcome, Setting, LENGTH, STALE_AT};
use crate::media::{PLAYED_AFTER, SOUND_EVERY};
use std::fmt::Write;

const LEFT: f64 = 70.0;
const WIDTH: f64 = 860.0;
const HEIGHT: f64 = 150.0;
const PANEL: f64 = 245.0;

const STYLE: &str = "svg{background:#fff}text{font:13px sans-serif;fill:#222}.small{font-size:11px;fill:#555}.axis{stroke:#888;fill:none}\
.rate{stroke:#1f5fa8;stroke-width:1.5;fill:none}.gap{fill:#ddd}.late{stroke:#b3261e;stroke-width:1.6}.played{fill:#9aa5b1}\
.stale{stroke:#222;stroke-dasharray:5 4}@media(prefers-color-scheme:dark){svg{background:#16191d}text{fill:#e6e6e6}.small{fill:#aaa}\
.axis{stroke:#777}.rate{stroke:#7ab8ff}.gap{fill:#333a42}.late{stroke:#ff8a80}.played{fill:#5a6570}.stale{stroke:#e6e6e6}}";

fn x(time: u64) -> f64 {
    LEFT + WIDTH * time as f64 / LENGTH as f64
}

pub fn draw(setting: &Setting, right: &Outcome, faulty: &Outcome) -> String {
    let mut svg = String::new();
    let height = 2.0 * PANEL + 95.0;
    let _ = write!(
        svg,
        "<svg xmlns=\"http://www.w3.org/2000/svg\" viewBox=\"0 0 960 {height}\" role=\"img\" aria-labelledby=\"t\">\n\
         <title id=\"t\">A simulated hearing with two receivers: {}</title>\n<style>{STYLE}</style>\n",
        setting.name
    );
    let _ = writeln!(
        svg,
        "<text x=\"{LEFT}\" y=\"22\">A simulated hearing ({}): encoder rate and sound, receiver by receiver</text>",
        setting.name
    );
    panel(&mut svg, 50.0, "Lumbixet: the stale frame changes nothing", setting, right);
    panel(
        &mut svg,
        50.0 + PANEL,
        "The receiver of the complaint: it stores the stale frame's reordering threshold",
        setting,
        faulty,
    );
    let foot = height - 18.0;
    let _ = write!(
        svg,
        "<rect class=\"gap\" x=\"{LEFT}\" y=\"{}\" width=\"12\" height=\"12\"/><text class=\"small\" x=\"{}\" y=\"{foot}\">the line is interrupted</text>\n\
         <path class=\"late\" d=\"M{} {} l8 -10 m0 10 l-8 -10\"/><text class=\"small\" x=\"{}\" y=\"{foot}\">x: a piece of sound came too late to be played</text>\n\
         <path class=\"stale\" d=\"M{} {} v-12\"/><text class=\"small\" x=\"{}\" y=\"{foot}\">the stale ACK_FREQUENCY frame arrives</text>\n</svg>\n",
        foot - 10.0,
        LEFT + 18.0,
        LEFT + 190.0,
        foot,
        LEFT + 205.0,
        LEFT + 510.0,
        foot,
        LEFT + 518.0,
    );
    svg
}

fn panel(svg: &mut String, top: f64, title: &str, setting: &Setting, outcome: &Outcome) {
    let bottom = top + 25.0 + HEIGHT;
    let y = |rate: f64| bottom - HEIGHT * rate / HIGHEST;
    let [_, late, never] = outcome.sound_counts();
    let _ = writeln!(
        svg,
        "<text x=\"{LEFT}\" y=\"{}\">{title}: {} of {} pieces of sound not in time</text>",
        top + 12.0,
        late + never,
        outcome.sound.len()
    );
    let mut gap = setting.line.every;
    while gap > 0 && gap < LENGTH {
        let width = (x(gap + setting.line.interruption) - x(gap)).max(1.5);
        let _ = writeln!(
            svg,
            "<rect class=\"gap\" x=\"{:.1}\" y=\"{:.1}\" width=\"{width:.1}\" height=\"{HEIGHT}\"/>",
            x(gap),
            top + 25.0
        );
        gap += setting.line.every;
    }
    let _ = write!(svg, "<path class=\"axis\" d=\"M{LEFT} {:.1} V{bottom} H{:.1}\"/>", top + 25.0, LEFT + WIDTH);
    for rate in [0.0, 0.5, 1.0, 1.5, 2.0, 2.5] {
        let _ = write!(
            svg,
            "<text class=\"small\" x=\"{:.1}\" y=\"{:.1}\" text-anchor=\"end\">{rate:.1}</text>",
            LEFT - 6.0,
            y(rate * 1e6) + 4.0
        );
    }
    let _ = writeln!(svg, "<text class=\"small\" x=\"14\" y=\"{:.1}\" transform=\"rotate(-90 14 {:.1})\" text-anchor=\"middle\">rate, Mbit/s</text>", bottom - HEIGHT / 2.0, bottom - HEIGHT / 2.0);
    let points: Vec<String> =
        outcome.rates.iter().enumerate().map(|(i, rate)| format!("{:.1},{:.1}", x(i as u64 * PICTURE_EVERY), y(*rate))).collect();
    let _ = writeln!(svg, "<polyline class=\"rate\" points=\"{}\"/>", points.join(" "));
    let _ = writeln!(svg, "<path class=\"stale\" d=\"M{:.1} {:.1} V{:.1}\"/>", x(STALE_AT), top + 20.0, bottom + 18.0);
    let _ = writeln!(svg, "<text class=\"small\" x=\"{:.1}\" y=\"{:.1}\" text-anchor=\"end\">sound</text><rect class=\"played\" x=\"{LEFT}\" y=\"{:.1}\" width=\"{WIDTH}\" height=\"4\"/>", LEFT - 6.0, bottom + 15.0, bottom + 9.0);
    for (piece, arrived) in outcome.sound.iter().enumerate() {
        let recorded = piece as u64 * SOUND_EVERY;
        if arrived.map_or(true, |at| at > recorded + PLAYED_AFTER) {
            let _ =
                writeln!(svg, "<path class=\"late\" d=\"M{:.1} {:.1} l4 10 m0 -10 l-4 10\"/>", x(recorded) - 2.0, bottom + 6.0);
        }
    }
    for second in (0..=60).step_by(10) {
        let _ = write!(
            svg,
            "<text class=\"small\" x=\"{:.1}\" y=\"{:.1}\" text-anchor=\"middle\">{second}{}</text>",
            x(second * 1_000_000),
            bottom + 34.0,
            if second == 60 { " s" } else { "" }
        );
    }
    svg.push('\n');
}
