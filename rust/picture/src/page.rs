//! A page: a heading, what it is about, and a legend.

use crate::legend::Legend;
use crate::style::style;
use crate::svg::{Anchor, HEADING, Point, SMALL, Svg};

/// The space at the edges.
const MARGIN: i32 = 28;
/// The height of the heading, and the space above the legend.
const TOP: i32 = 66;
const ABOVE_LEGEND: i32 = 32;
/// The longest line of a legend, unless an entry is longer.
const LEGEND: i32 = 960;

/// A heading of two lines.
pub struct Heading {
    /// The first, which is the title of the picture too.
    pub title: String,
    /// The second.
    pub below: String,
}

/// About the size of a page with contents of such a size: with a heading, and with a legend of three lines.
pub fn page_size([width, height]: Point) -> Point {
    [width + 2 * MARGIN, height + TOP + ABOVE_LEGEND + 4 * MARGIN]
}

/// A page, given the size of its contents and what draws them at a place.
pub fn finish(
    heading: &Heading,
    legend: &Legend,
    [width, height]: Point,
    draw: impl FnOnce(&mut Svg, Point),
) -> String {
    let mut svg = Svg::default();
    let title = [MARGIN, MARGIN + 18];
    svg.text("strong", HEADING, Anchor::Start, title, &heading.title);
    let below = [MARGIN, MARGIN + 40];
    svg.text("muted", SMALL, Anchor::Start, below, &heading.below);
    let headings = [HEADING.width(&heading.title), SMALL.width(&heading.below)];
    let widest = width.max(headings[0]).max(headings[1]);
    let lines = widest.min(LEGEND).max(legend.least_width());
    let origin = [MARGIN, MARGIN + TOP];
    draw(&mut svg, origin);
    let rule = origin[1] + height + ABOVE_LEGEND / 2;
    let right = MARGIN + lines;
    svg.path("rule", 10, &format!("M{MARGIN} {rule}L{right} {rule}"));
    legend.draw(&mut svg, [MARGIN, rule + 8], lines);
    let size = [
        widest.max(lines) + 2 * MARGIN,
        rule + 8 + legend.height(lines) + MARGIN - 8,
    ];
    svg.finish(size, &heading.title, &style())
}
