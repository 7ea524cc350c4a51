//! The legend: what shapes, lines, labels and numbers mean.

use crate::chips::Chip;
use crate::network::Kind;
use crate::svg::{Anchor, Point, SMALL, Svg};
use crate::tree::{Link, Site};

/// The height of a line.
const LINE: i32 = 32;
/// The length of the line of a link.
const LINK: i32 = 32;
/// The space behind a sample, and between entries.
const BEHIND_SAMPLE: i32 = 8;
const BETWEEN: i32 = 28;

/// Draws a sample, given its left edge and its middle line.
pub type Sample<'text> = Box<dyn Fn(&mut Svg, Point) + 'text>;

/// An entry: a sample with its width, if there is one, and what it means.
pub struct Entry<'text> {
    /// The sample.
    pub sample: Option<(i32, Sample<'text>)>,
    /// What it means.
    pub text: String,
}

impl Entry<'_> {
    /// An entry of words alone.
    pub fn words(text: &str) -> Self {
        Entry {
            sample: None,
            text: text.to_string(),
        }
    }

    /// An entry with a chip.
    pub fn chip(chip: Chip, text: &str) -> Self {
        let draw = move |svg: &mut Svg, at: Point| chip.draw(svg, at);
        Entry {
            sample: Some((chip.width(), Box::new(draw))),
            text: text.to_string(),
        }
    }

    /// An entry with a site of a class in the style, which tells what it is itself.
    pub fn site(kind: Kind, class: &'static str, name: &'static str) -> Self {
        let site = Site {
            name,
            kind,
            class,
            chip: None,
        };
        let draw = move |svg: &mut Svg, [left, y]: Point| site.draw(svg, left, y);
        Entry {
            sample: Some((site.width(), Box::new(draw))),
            text: String::new(),
        }
    }

    /// An entry with the line of a link.
    pub fn line(carried: u64, usable: u64, text: &str) -> Self {
        let link = Link {
            carried,
            usable,
            colour: None,
            label: String::new(),
            is_cut: false,
        };
        let draw = move |svg: &mut Svg, at: Point| link.draw_sample(svg, at, LINK);
        Entry {
            sample: Some((LINK, Box::new(draw))),
            text: text.to_string(),
        }
    }

    fn width(&self) -> i32 {
        match &self.sample {
            None => SMALL.width(&self.text),
            Some((width, _)) if self.text.is_empty() => *width,
            Some((width, _)) => width + BEHIND_SAMPLE + SMALL.width(&self.text),
        }
    }
}

/// A legend.
pub struct Legend<'text> {
    /// Its entries.
    pub entries: Vec<Entry<'text>>,
}

impl Legend<'_> {
    /// The widest entry.
    pub fn least_width(&self) -> i32 {
        self.entries.iter().map(Entry::width).max().unwrap_or(0)
    }

    /// Where each entry stands, in lines no longer than this.
    fn places(&self, width: i32) -> Vec<Point> {
        let mut x = 0;
        let mut line = 0;
        let mut places = Vec::with_capacity(self.entries.len());
        for entry in &self.entries {
            if x > 0 && x + entry.width() > width {
                x = 0;
                line += LINE;
            }
            places.push([x, line + LINE / 2]);
            x += entry.width() + BETWEEN;
        }
        places
    }

    /// The height of the legend in lines no longer than this.
    pub fn height(&self, width: i32) -> i32 {
        let places = self.places(width);
        places.last().map_or(0, |[_, y]| y + LINE / 2)
    }

    /// Draws the legend, given its left upper corner and the longest line.
    pub fn draw(&self, svg: &mut Svg, [left, top]: Point, width: i32) {
        for (entry, [x, y]) in self.entries.iter().zip(self.places(width)) {
            let [mut x, y] = [left + x, top + y];
            if let Some((width, sample)) = &entry.sample {
                sample(svg, [x, y]);
                x += width + BEHIND_SAMPLE;
            }
            if !entry.text.is_empty() {
                svg.text("muted", SMALL, Anchor::Start, [x, y + 4], &entry.text);
            }
        }
    }
}
