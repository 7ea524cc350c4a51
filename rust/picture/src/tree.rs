//! Draws a tree that is laid out.

use crate::chips::Chip;
use crate::layout::{Layout, Place, Route, SITE_HEIGHT, Tree};
use crate::network::Kind;
use crate::style::width;
use crate::svg::{Anchor, NAME, Point, SMALL, Svg};

/// The space inside a site, at its left and right edge and behind its chip.
const INSIDE: i32 = 10;
const BEHIND_CHIP: i32 = 6;
/// How far the tips of a marked end reach.
const TIP: i32 = 9;
/// How much wider than the line of a link the strip is at least that shows its room, in tenths.
const STRIP: i32 = 60;

/// How a site looks.
#[derive(Clone, Copy)]
pub struct Site<'text> {
    /// Its name.
    pub name: &'text str,
    /// What it is, which its shape tells.
    pub kind: Kind,
    /// Its class in the style.
    pub class: &'static str,
    /// The chip of its end set.
    pub chip: Option<Chip>,
}

impl Site<'_> {
    /// The space before what stands inside.
    fn before(self) -> i32 {
        match self.kind {
            Kind::Marked => INSIDE + TIP / 2,
            Kind::End | Kind::Joint if self.chip.is_some() => INSIDE - 4,
            Kind::End | Kind::Joint => INSIDE,
        }
    }

    /// The width of the site.
    pub fn width(self) -> i32 {
        let chip = self.chip.map_or(0, |chip| chip.width() + BEHIND_CHIP);
        let behind = if self.kind == Kind::Marked {
            TIP / 2
        } else {
            0
        };
        self.before() + chip + NAME.width(self.name) + INSIDE + behind
    }

    /// Draws the site.
    pub fn draw(self, svg: &mut Svg, left: i32, y: i32) {
        self.shape(svg, self.class, left, y);
        let mut inside = left + self.before();
        if let Some(chip) = self.chip {
            if let Some(colour) = chip.colour {
                self.shape(svg, &format!("t{colour}"), left, y);
            }
            chip.draw(svg, [inside, y]);
            inside += chip.width() + BEHIND_CHIP;
        }
        svg.text("", NAME, Anchor::Start, [inside, y + 5], self.name);
    }

    /// Its shape: round for an end, with tips for a marked end, with corners for a joint.
    fn shape(self, svg: &mut Svg, class: &str, left: i32, y: i32) {
        let half = SITE_HEIGHT / 2;
        let size = [self.width(), SITE_HEIGHT];
        let right = left + self.width();
        match self.kind {
            Kind::End => svg.rect(class, [left, y - half], size, half),
            Kind::Joint => svg.rect(class, [left, y - half], size, 2),
            Kind::Marked => {
                let [top, bottom] = [y - half, y + half];
                let corners = [
                    [left, y],
                    [left + TIP, top],
                    [right - TIP, top],
                    [right, y],
                    [right - TIP, bottom],
                    [left + TIP, bottom],
                ];
                svg.polygon(class, &corners);
            }
        }
    }
}

/// How a link looks.
#[derive(Clone)]
pub struct Link {
    /// What it carries.
    pub carried: u64,
    /// Its usable size.
    pub usable: u64,
    /// The colour of the set that it lies in, if one does.
    pub colour: Option<usize>,
    /// Its label.
    pub label: String,
    /// Whether it was just cut.
    pub is_cut: bool,
}

impl Link {
    /// Draws the strip that shows the room of a link that is not full.
    fn draw_room(&self, svg: &mut Svg, way: &str, largest: u64) {
        if self.carried == self.usable {
            return;
        }
        let class = match self.colour {
            Some(colour) => format!("room r{colour}"),
            None => "room".to_string(),
        };
        let least = width(self.carried, largest) + STRIP;
        svg.path(&class, width(self.usable, largest).max(least), way);
    }

    /// Draws the line.
    fn draw_line(&self, svg: &mut Svg, way: &str, largest: u64) {
        let class = match (self.carried, self.is_cut) {
            (0, false) => "link none",
            (0, true) => "link none cut",
            (_, false) => "link",
            (_, true) => "link cut",
        };
        svg.path(class, width(self.carried, largest), way);
    }

    /// Draws the link along a straight line, as in a legend.
    pub fn draw_sample(&self, svg: &mut Svg, [left, y]: Point, length: i32) {
        let way = format!("M{left} {y}L{} {y}", left + length);
        self.draw_room(svg, &way, self.usable);
        self.draw_line(svg, &way, self.usable);
    }
}

/// A tree to draw: what its sites and links look like.
pub struct Drawing<'text> {
    /// The sites.
    pub sites: Vec<Site<'text>>,
    /// The links.
    pub links: Vec<Link>,
    /// The size that has the widest line.
    pub largest: u64,
}

impl Drawing<'_> {
    /// Lays the tree out, given the links at each site, and which sites with children have rows of their own too.
    pub fn layout(&self, around: &[Vec<(usize, usize)>], rows: &[bool]) -> Layout {
        let sites: Vec<i32> = self.sites.iter().map(|site| site.width()).collect();
        let labels = self.links.iter().map(|link| SMALL.width(&link.label));
        Layout::new(&Tree {
            around,
            sites: &sites,
            labels: &labels.collect::<Vec<i32>>(),
            rows,
        })
    }

    /// Draws the tree: the strips below the lines, and the sites and labels above them.
    pub fn draw(&self, svg: &mut Svg, origin: Point, layout: &Layout) {
        let ways: Vec<String> = layout.links.iter().map(|it| way(it, origin)).collect();
        for (link, way) in self.links.iter().zip(&ways) {
            link.draw_room(svg, way, self.largest);
        }
        for (link, way) in self.links.iter().zip(&ways) {
            link.draw_line(svg, way, self.largest);
        }
        let [across, down] = origin;
        for (link, route) in self.links.iter().zip(&layout.links) {
            let [right, y] = route.ends[1];
            let at = [across + right - 8, down + y - 10];
            let class = if link.is_cut { "cut" } else { "" };
            svg.text(class, SMALL, Anchor::End, at, &link.label);
        }
        for (site, Place { left, y, .. }) in self.sites.iter().zip(&layout.sites) {
            site.draw(svg, across + left, down + y);
        }
    }
}

/// The way of a link.
fn way(route: &Route, [across, down]: Point) -> String {
    let [[from, y], [to, end]] = route.ends;
    curve(
        [across + from, down + y],
        route.fan.map(|x| across + x),
        [across + to, down + end],
    )
}

/// A line that leaves its first row between two places, and goes on in its last.
pub fn curve([from, y]: Point, [leave, arrive]: [i32; 2], [to, end]: Point) -> String {
    if y == end {
        return format!("M{from} {y}L{to} {y}");
    }
    let middle = i32::midpoint(leave, arrive);
    format!("M{from} {y}L{leave} {y}C{middle} {y} {middle} {end} {arrive} {end}L{to} {end}")
}
