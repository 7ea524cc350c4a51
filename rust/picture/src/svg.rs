//! The text of an SVG: elements, attributes, escapes.
//!
//! All coordinates are whole numbers, so that the same picture is the same text everywhere.

use std::fmt::{Display, Write};

/// A point: across, and down.
pub type Point = [i32; 2];

/// A size of letters. All letters are as wide as `advance` at most, whichever monospaced font is there.
#[derive(Clone, Copy)]
pub struct Font {
    /// The height of the font.
    pub size: i32,
    /// The room for each letter.
    pub advance: i32,
}

/// The letters of names and tables.
pub const NAME: Font = Font {
    size: 13,
    advance: 8,
};
/// The letters of labels, captions and the legend.
pub const SMALL: Font = Font {
    size: 11,
    advance: 7,
};
/// The letters of the heading.
pub const HEADING: Font = Font {
    size: 20,
    advance: 13,
};

impl Font {
    /// The room for a text.
    pub fn width(self, text: &str) -> i32 {
        self.advance * text.chars().count() as i32
    }
}

/// Which point of a text is where it is put.
#[derive(Clone, Copy)]
pub enum Anchor {
    /// The left end.
    Start,
    /// The middle.
    Middle,
    /// The right end.
    End,
}

/// An SVG that is being written.
#[derive(Default)]
pub struct Svg {
    body: String,
}

impl Svg {
    /// Writes an element without content.
    pub fn element(&mut self, name: &str, attributes: &[(&str, &dyn Display)]) {
        self.body.push('<');
        self.body.push_str(name);
        for (attribute, value) in attributes {
            let value = escaped(&value.to_string());
            let _ = write!(self.body, " {attribute}=\"{value}\"");
        }
        self.body.push_str("/>\n");
    }

    /// Writes a text on a base line.
    pub fn text(&mut self, class: &str, font: Font, anchor: Anchor, at: Point, text: &str) {
        let anchor = match anchor {
            Anchor::Start => "",
            Anchor::Middle => " text-anchor=\"middle\"",
            Anchor::End => " text-anchor=\"end\"",
        };
        let [x, y] = at;
        let _ = writeln!(
            self.body,
            "<text x=\"{x}\" y=\"{y}\" font-size=\"{}\" class=\"{}\"{anchor}>{}</text>",
            font.size,
            escaped(class),
            escaped(text)
        );
    }

    /// Draws a rectangle with round corners, given its left upper corner and its size.
    pub fn rect(&mut self, class: &str, at: Point, size: Point, round: i32) {
        let [x, y] = at;
        let [width, height] = size;
        let corners: [(&str, &dyn Display); 6] = [
            ("class", &class),
            ("x", &x),
            ("y", &y),
            ("width", &width),
            ("height", &height),
            ("rx", &round),
        ];
        self.element("rect", &corners);
    }

    /// Draws a line, given its class, its width in tenths, and its way.
    pub fn path(&mut self, class: &str, tenths: i32, way: &str) {
        let width = format!("{}.{}", tenths / 10, tenths % 10);
        let attributes: [(&str, &dyn Display); 3] =
            [("class", &class), ("stroke-width", &width), ("d", &way)];
        self.element("path", &attributes);
    }

    /// Draws a closed shape, given its corners.
    pub fn polygon(&mut self, class: &str, corners: &[Point]) {
        let corners: Vec<String> = corners.iter().map(|[x, y]| format!("{x},{y}")).collect();
        let points = corners.join(" ");
        self.element("polygon", &[("class", &class), ("points", &points)]);
    }

    /// The whole text, given the size of the page, its title and its style.
    pub fn finish(self, [width, height]: Point, title: &str, style: &str) -> String {
        format!(
            "<svg xmlns=\"http://www.w3.org/2000/svg\" width=\"{width}\" height=\"{height}\" \
             viewBox=\"0 0 {width} {height}\" role=\"img\">\n<title>{}</title>\n<style>\n{}</style>\n\
             <rect class=\"page\" x=\"0\" y=\"0\" width=\"{width}\" height=\"{height}\"/>\n{}</svg>\n",
            escaped(title),
            escaped(style),
            self.body
        )
    }
}

/// A text with the signs of XML written out.
fn escaped(text: &str) -> String {
    text.replace('&', "&amp;")
        .replace('<', "&lt;")
        .replace('>', "&gt;")
        .replace('"', "&quot;")
}

#[cfg(test)]
mod tests {
    use super::{Anchor, NAME, Svg};

    #[test]
    fn signs_are_written_out() {
        let mut svg = Svg::default();
        svg.text("a\"b", NAME, Anchor::End, [1, 2], "<&>");
        let due = "<text x=\"1\" y=\"2\" font-size=\"13\" class=\"a&quot;b\" text-anchor=\"end\">&lt;&amp;&gt;</text>\n";
        assert!(svg.finish([3, 4], "t", "").contains(due));
    }
}
