//! One page to keep or to print: the sentence first, bars as inline SVG, tables. It needs no script and
//! no other file, and it can be read on a phone.

use super::show::{number, Side, Table};

/// A page while it is put together.
pub struct Page {
    title: String,
    sentence: String,
    body: String,
}

/// A share as a bar: how much of the width is filled, and the words beside it.
pub struct Bar {
    label: String,
    /// From 0 to 1.
    filled: f64,
    words: String,
}

impl Bar {
    pub fn of(label: &str, got: f64, wanted: Option<f64>) -> Bar {
        let filled = match wanted {
            Some(wanted) if wanted > got => got / wanted,
            _ => 1.0,
        };
        let words = match wanted {
            Some(wanted) => format!("{} of {}", number(got), number(wanted)),
            None => number(got),
        };
        Bar::with(label, filled, &words)
    }

    pub fn with(label: &str, filled: f64, words: &str) -> Bar {
        Bar {
            label: label.to_string(),
            filled: if filled.is_nan() {
                0.0
            } else {
                filled.clamp(0.0, 1.0)
            },
            words: words.to_string(),
        }
    }
}

const STYLE: &str = "\
body{font:16px/1.4 sans-serif;margin:0 auto;padding:12px;max-width:60em;color:#111;background:#fff}\
h1{font-size:1.3em}h2{font-size:1em;margin:1.2em 0 .3em}\
.wide{overflow-x:auto}table{border-collapse:collapse;font-variant-numeric:tabular-nums}\
td,th{padding:2px 8px;border-bottom:1px solid #ddd;text-align:left;white-space:nowrap}\
.right{text-align:right}svg{width:100%;max-width:40em;height:auto;display:block}\
text{font:11px sans-serif}.full{fill:#2a6}.cut{fill:#c33}.back{fill:#e4e4e4}\
dl{margin:.5em 0}dt{float:left;clear:left;width:6em;color:#555}dd{margin:0 0 0 6.5em}\
@media print{body{padding:0}}";

impl Page {
    pub fn new(title: &str, sentence: &str) -> Page {
        Page {
            title: title.trim().to_string(),
            sentence: sentence.to_string(),
            body: String::new(),
        }
    }

    /// Names and what they are.
    pub fn facts(&mut self, facts: &[(&str, String)]) {
        let facts = facts
            .iter()
            .map(|(name, value)| format!("<dt>{}</dt><dd>{}</dd>", escaped(name), escaped(value)));
        self.body += &format!("<dl>{}</dl>\n", facts.collect::<String>());
    }

    pub fn text(&mut self, text: &str) {
        self.body += &format!("<p>{}</p>\n", escaped(text));
    }

    pub fn table(&mut self, title: &str, table: &Table) {
        let mut rows = String::new();
        for (at, cells) in table.rows().iter().enumerate() {
            let tag = if at == 0 { "th" } else { "td" };
            let cells = cells.iter().zip(table.sides()).map(|(cell, side)| {
                let class = if *side == Side::Right {
                    " class=\"right\""
                } else {
                    ""
                };
                format!("<{tag}{class}>{}</{tag}>", escaped(cell))
            });
            rows += &format!("<tr>{}</tr>\n", cells.collect::<String>());
        }
        self.head(title);
        self.body += &format!("<div class=\"wide\"><table>\n{rows}</table></div>\n");
    }

    /// A line for each: the label, the bar, the words.
    pub fn bars(&mut self, title: &str, bars: &[Bar]) {
        const LINE: usize = 18;
        let mut lines = String::new();
        for (at, bar) in bars.iter().enumerate() {
            let y = at * LINE;
            let class = if bar.filled < 1.0 { "cut" } else { "full" };
            lines += &format!(
                "<text x=\"0\" y=\"{}\">{}</text>\
                 <rect class=\"back\" x=\"90\" y=\"{top}\" width=\"180\" height=\"12\"/>\
                 <rect class=\"{class}\" x=\"90\" y=\"{top}\" width=\"{:.1}\" height=\"12\"/>\
                 <text x=\"276\" y=\"{}\">{}</text>\n",
                y + 12,
                escaped(&bar.label),
                180.0 * bar.filled,
                y + 12,
                escaped(&bar.words),
                top = y + 2
            );
        }
        self.head(title);
        self.svg(title, bars.len() * LINE, &lines);
    }

    /// A bar for what is sure, from one end, and one for what isn't: the gap, however small.
    pub fn gap(&mut self, words: &str, part: f64) {
        let part = if part.is_finite() {
            part.clamp(0.0, 1.0)
        } else {
            1.0
        };
        let open = if part > 0.0 {
            (360.0 * part).max(1.0)
        } else {
            0.0
        };
        let bars = format!(
            "<rect class=\"full\" x=\"0\" y=\"2\" width=\"{:.1}\" height=\"14\"/>\
             <rect class=\"cut\" x=\"{:.1}\" y=\"2\" width=\"{open:.1}\" height=\"14\"/>\n",
            360.0 - open,
            360.0 - open
        );
        self.head("The gap");
        self.svg(words, 18, &bars);
        self.text(words);
    }

    /// A heading.
    pub fn head(&mut self, title: &str) {
        self.body += &format!("<h2>{}</h2>\n", escaped(title));
    }

    fn svg(&mut self, title: &str, height: usize, inside: &str) {
        self.body += &format!(
            "<svg viewBox=\"0 0 360 {height}\" role=\"img\"><title>{}</title>\n{inside}</svg>\n",
            escaped(title)
        );
    }

    /// The whole page.
    pub fn finish(self) -> String {
        format!(
            "<!DOCTYPE html>\n<html lang=\"en\"><head><meta charset=\"utf-8\"/>\
             <meta name=\"viewport\" content=\"width=device-width, initial-scale=1\"/>\n\
             <title>{}</title>\n<style>{STYLE}</style></head>\n<body>\n<h1>{}</h1>\n{}</body></html>\n",
            escaped(&self.title),
            escaped(&self.sentence),
            self.body
        )
    }
}

/// Text as it may stand between tags. Control characters, which a page can't have, become U+FFFD.
fn escaped(text: &str) -> String {
    let mut out = String::new();
    for c in text.chars() {
        match c {
            '&' => out += "&amp;",
            '<' => out += "&lt;",
            '>' => out += "&gt;",
            '"' => out += "&quot;",
            c if c.is_control() => out.push('\u{fffd}'),
            c => out.push(c),
        }
    }
    out
}
