//! The parts of a picture: lines, texts and marks, on light and on dark ground.

use crate::kinds;

/// Each class of lines and texts: what it paints, on light and on dark ground.
const CLASSES: [(&str, &str, &str); 9] = [
    ("ground", "fill:#fbfcfd", "fill:#0f1318"),
    ("plot", "fill:#ffffff;stroke:#d9dde3", "fill:#161b22;stroke:#30363d"),
    ("ink", "fill:#1f2328", "fill:#e6edf3"),
    ("soft", "fill:#57606a", "fill:#9da7b3"),
    ("axis", "stroke:#1f2328;stroke-width:1", "stroke:#c9d1d9;stroke-width:1"),
    ("grid", "stroke:#d9dde3;stroke-width:0.7", "stroke:#2b323b;stroke-width:0.7"),
    ("guide", "stroke:#9aa4b2;stroke-width:0.6;stroke-dasharray:2 3", "stroke:#5b6572;stroke-width:0.6;stroke-dasharray:2 3"),
    ("bad", "fill:#c81e1e", "fill:#ff7b72"),
    ("on", "fill:#ffffff", "fill:#0f1318"),
];

/// A text in XML.
pub fn escaped(text: &str) -> String {
    text.replace('&', "&amp;").replace('<', "&lt;").replace('>', "&gt;").replace('"', "&quot;")
}

/// A length to a tenth.
pub fn length(number: f64) -> String {
    let text = format!("{number:.1}");
    let text = text.strip_suffix(".0").unwrap_or(&text);
    if text == "-0" {
        "0".to_string()
    } else {
        text.to_string()
    }
}

/// How a text is set; what is not said is as usual.
pub struct Style<'a> {
    pub size: u32,
    pub anchor: &'a str,
    pub class: &'a str,
    pub bold: bool,
    /// Another attribute.
    pub more: &'a str,
}

impl Default for Style<'_> {
    fn default() -> Self {
        Style { size: 13, anchor: "start", class: "ink", bold: false, more: "" }
    }
}

/// The elements of a picture, in the order in which they are painted, each on a line of its own.
#[derive(Default)]
pub struct Svg {
    pub parts: String,
}

impl Svg {
    pub fn add(&mut self, element: &str) {
        self.parts.push_str(element);
        self.parts.push('\n');
    }

    pub fn text(&mut self, x: f64, y: f64, words: &str, style: Style) {
        self.spans(x, y, &escaped(words), style);
    }

    /// A text of which parts are marked up already.
    pub fn spans(&mut self, x: f64, y: f64, spans: &str, style: Style) {
        let Style { size, anchor, class, bold, more } = style;
        let anchor = if anchor == "start" { String::new() } else { format!(" text-anchor=\"{anchor}\"") };
        let weight = if bold { " font-weight=\"600\"" } else { "" };
        let more = if more.is_empty() { String::new() } else { format!(" {more}") };
        let (x, y) = (length(x), length(y));
        self.add(&format!(r#"<text class="{class}" x="{x}" y="{y}" font-size="{size}"{anchor}{weight}{more}>{spans}</text>"#));
    }

    /// From a point to a point.
    pub fn line(&mut self, from: (f64, f64), to: (f64, f64), class: &str) {
        let [x1, y1, x2, y2] = [from.0, from.1, to.0, to.1].map(length);
        self.add(&format!(r#"<line class="{class}" x1="{x1}" y1="{y1}" x2="{x2}" y2="{y2}"/>"#));
    }

    /// A rectangle, from its upper left corner.
    pub fn rect(&mut self, at: (f64, f64), size: (f64, f64), class: &str) {
        let [x, y, width, height] = [at.0, at.1, size.0, size.1].map(length);
        self.add(&format!(r#"<rect class="{class}" x="{x}" y="{y}" width="{width}" height="{height}"/>"#));
    }

    /// The mark of a kind; a pointer over it shows the words.
    pub fn mark(&mut self, kind: usize, x: f64, y: f64, words: &str) {
        let (name, x, y) = (kinds::ALL[kind].name, length(x), length(y));
        let rest = if words.is_empty() { "/>".to_string() } else { format!("><title>{}</title></use>", escaped(words)) };
        self.add(&format!(r##"<use href="#{name}" x="{x}" y="{y}"{rest}"##));
    }

    /// The whole picture. `says` is for those who do not see it.
    pub fn end(self, width: f64, height: f64, title: &str, says: &str) -> String {
        let (title, says, (width, height)) = (escaped(title), escaped(says), (length(width), length(height)));
        format!(
            r#"<svg xmlns="http://www.w3.org/2000/svg" viewBox="0 0 {width} {height}" role="img" font-family="Helvetica, Arial, sans-serif">
<title>{title}</title>
<desc>{says}</desc>
<style>
{}</style>
<rect class="ground" width="{width}" height="{height}"/>
{}</svg>
"#,
            styles(),
            self.parts
        )
    }
}

/// What each class paints: a kind's class fills, and with `-line` it draws.
fn styles() -> String {
    let classes = |dark: bool| -> String {
        let plain =
            CLASSES.iter().map(|(name, on_light, on_dark)| format!(".{name}{{{}}}\n", if dark { on_dark } else { on_light }));
        let kinds = kinds::ALL.iter().map(|kind| {
            let (name, colour) = (kind.name, if dark { kind.dark } else { kind.light });
            format!(".{name}{{fill:{colour}}}.{name}-line{{fill:none;stroke:{colour}}}\n")
        });
        plain.chain(kinds).collect()
    };
    format!("{}@media (prefers-color-scheme:dark){{\n{}}}\n", classes(false), classes(true))
}

/// The shapes of the marks of a hearing.
pub fn shapes() -> String {
    let shape = |kind: &kinds::Kind| {
        let class = if kind.filled { kind.name.to_string() } else { format!("{}-line", kind.name) };
        format!("<path id=\"{}\" class=\"{class}\" stroke-width=\"1.6\" d=\"{}\"/>\n", kind.name, kind.shape)
    };
    format!("<defs>\n{}</defs>", kinds::ALL.iter().map(shape).collect::<String>())
}
