//! A page in HTML: one file, which needs no network and no script; light and dark, narrow and wide.

use crate::help;
use crate::svg::escaped;

const STYLE: &str = "
:root{color-scheme:light dark;--ground:#fbfcfd;--ink:#1f2328;--soft:#57606a;--line:#d9dde3;--head:#eef1f5}
@media (prefers-color-scheme:dark){:root{--ground:#0f1318;--ink:#e6edf3;--soft:#9da7b3;--line:#30363d;--head:#1c222b}}
body{margin:0;background:var(--ground);color:var(--ink);font:16px/1.5 Helvetica,Arial,sans-serif}
main{max-width:82rem;margin:0 auto;padding:1rem 1.2rem 3rem}
h1{font-size:1.7rem;line-height:1.25;margin:.6rem 0;overflow-wrap:anywhere}
h2{font-size:1.25rem;margin:2rem 0 .5rem}
p,li{max-width:60rem}
.soft,footer{color:var(--soft)}
figure,.wide{overflow-x:auto;margin:1rem 0}
figure svg{display:block;width:100%;min-width:54rem}
table{border-collapse:collapse}
th,td{padding:.3rem .9rem;border-bottom:1px solid var(--line);text-align:left;vertical-align:top}
th{background:var(--head)}
.number{text-align:right;font-variant-numeric:tabular-nums;white-space:nowrap}
footer{margin-top:3rem;border-top:1px solid var(--line);padding-top:.6rem;font-size:.9rem}
";

/// Of hearings and weeks.
pub const PROVED: &str = "Every answer is that of a proved call; reading, adding up for this page and drawing are not proved.";
/// Of lines that somebody else printed.
pub const GIVEN: &str = "It shows the lines that were given, and judges none of them.";

pub struct Page {
    title: String,
    parts: String,
}

impl Page {
    pub fn new(title: &str) -> Page {
        Page { title: title.to_string(), parts: format!("<h1>{}</h1>\n", escaped(title)) }
    }

    pub fn heading(&mut self, words: &str) {
        self.parts += &format!("<h2>{}</h2>\n", escaped(words));
    }

    /// Nothing where there are no words.
    pub fn paragraph(&mut self, words: &str) {
        if !words.is_empty() {
            self.parts += &format!("<p>{}</p>\n", escaped(words));
        }
    }

    /// A picture; where the page is narrow it can be moved to the side.
    pub fn picture(&mut self, svg: &str) {
        self.parts += &format!("<figure tabindex=\"0\">\n{svg}</figure>\n");
    }

    /// A table; columns whose heading begins with a `#` hold numbers.
    pub fn table(&mut self, headings: &[&str], rows: &[Vec<String>]) {
        let class = |column: usize| if headings[column].starts_with('#') { " class=\"number\"" } else { "" };
        let head = headings.iter().enumerate();
        let head: String =
            head.map(|(at, words)| format!("<th{}>{}</th>", class(at), escaped(words.trim_start_matches('#')))).collect();
        self.parts += &format!("<div class=\"wide\"><table>\n<thead><tr>{head}</tr></thead>\n<tbody>\n");
        for row in rows {
            let cells: String =
                row.iter().enumerate().map(|(at, cell)| format!("<td{}>{}</td>", class(at), escaped(cell))).collect();
            self.parts += &format!("<tr>{cells}</tr>\n");
        }
        self.parts += "</tbody>\n</table></div>\n";
    }

    pub fn list(&mut self, items: &[String]) {
        let items: String = items.iter().map(|item| format!("<li>{}</li>\n", escaped(item))).collect();
        self.parts += &format!("<ul>\n{items}</ul>\n");
    }

    /// `source` says at its foot where the answers come from.
    pub fn end(self, source: &str) -> String {
        format!(
            "<!DOCTYPE html>
<html lang=\"en\">
<head>
<meta charset=\"utf-8\">
<meta name=\"viewport\" content=\"width=device-width, initial-scale=1\">
<title>{}</title>
<style>{STYLE}</style>
</head>
<body>
<main>
{}<footer>Made by lumbixet {}. {}</footer>
</main>
</body>
</html>
",
            escaped(&self.title),
            self.parts,
            help::version(),
            escaped(source)
        )
    }
}
