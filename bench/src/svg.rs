//! Pictures as SVG: a sheet on which lines, dots, boxes and words are put.
use std::fmt::Write;

/// A sheet of this many pixels. Its title and what is seen on it are for readers who cannot see it.
pub struct Sheet {
    width: f64,
    height: f64,
    title: String,
    about: String,
    body: String,
}

/// Where words are: from the place on, around it, or up to it.
#[derive(Clone, Copy, Debug, PartialEq, Eq)]
pub enum Anchor {
    Start,
    Middle,
    End,
}

pub const INK: &str = "#222222";
pub const FAINT: &str = "#dddddd";
pub const PALE: &str = "#f2f2f2";

fn escaped(words: &str) -> String {
    words.replace('&', "&amp;").replace('<', "&lt;").replace('>', "&gt;")
}

impl Anchor {
    fn name(self) -> &'static str {
        match self {
            Anchor::Start => "start",
            Anchor::Middle => "middle",
            Anchor::End => "end",
        }
    }
}

impl Sheet {
    pub fn new(width: f64, height: f64, title: &str, about: &str) -> Self {
        Sheet { width, height, title: escaped(title), about: escaped(about), body: String::new() }
    }

    fn put(&mut self, element: std::fmt::Arguments<'_>) {
        // (writing to a text does not fail)
        let _ = writeln!(self.body, "{element}");
    }

    pub fn line(&mut self, from: (f64, f64), to: (f64, f64), color: &str, width: f64) {
        let ((x1, y1), (x2, y2)) = (from, to);
        self.put(format_args!(
            r#"<line x1="{x1:.1}" y1="{y1:.1}" x2="{x2:.1}" y2="{y2:.1}" stroke="{color}" stroke-width="{width}"/>"#
        ));
    }

    pub fn dot(&mut self, at: (f64, f64), color: &str) {
        self.put(format_args!(r#"<circle cx="{:.1}" cy="{:.1}" r="3.5" fill="{color}"/>"#, at.0, at.1));
    }

    /// A box without a border, from its corner at the top left.
    pub fn field(&mut self, at: (f64, f64), width: f64, height: f64, color: &str) {
        let (x, y) = at;
        self.put(format_args!(
            r#"<rect x="{x:.1}" y="{y:.1}" width="{width:.1}" height="{height:.1}" fill="{color}"/>"#
        ));
    }

    fn put_words(&mut self, at: (f64, f64), anchor: Anchor, words: &str, look: &str) {
        let (x, y) = at;
        let (anchor, words) = (anchor.name(), escaped(words));
        self.put(format_args!(r#"<text x="{x:.1}" y="{y:.1}" text-anchor="{anchor}" {look}>{words}</text>"#));
    }

    pub fn words(&mut self, at: (f64, f64), anchor: Anchor, words: &str) {
        self.colored(at, anchor, words, INK);
    }

    pub fn colored(&mut self, at: (f64, f64), anchor: Anchor, words: &str, color: &str) {
        self.put_words(at, anchor, words, &format!(r#"fill="{color}""#));
    }

    pub fn heading(&mut self, at: (f64, f64), words: &str) {
        self.put_words(at, Anchor::Start, words, &format!(r#"fill="{INK}" font-weight="bold""#));
    }

    /// The picture, on white.
    pub fn text(&self) -> String {
        let Sheet { width, height, title, about, body } = self;
        format!(
            "<svg xmlns=\"http://www.w3.org/2000/svg\" role=\"img\" width=\"{width}\" height=\"{height}\" \
             viewBox=\"0 0 {width} {height}\" font-family=\"sans-serif\" font-size=\"12\">\n\
             <title>{title}</title>\n<desc>{about}</desc>\n\
             <rect width=\"100%\" height=\"100%\" fill=\"white\"/>\n{body}</svg>\n"
        )
    }
}

#[cfg(test)]
mod tests {
    use super::*;

    #[test]
    fn words_are_escaped_and_a_sheet_is_whole() {
        let mut sheet = Sheet::new(10.0, 20.0, "a & b", "two lines < three");
        sheet.words((1.0, 2.0), Anchor::End, "a < b & c");
        let text = sheet.text();
        assert!(text.starts_with("<svg ") && text.ends_with("</svg>\n"));
        assert!(text.contains(">a &lt; b &amp; c</text>"));
        assert!(text.contains("<title>a &amp; b</title>\n<desc>two lines &lt; three</desc>"));
    }
}
