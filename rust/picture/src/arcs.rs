//! Pairs as arcs beside the tree.
//!
//! From each end a dotted line leads to the right of the tree, in the row of the end; an end inside the tree has a row of
//! its own for it, and its name there again. Each arc has its amount at its outermost point, and no two of these points
//! are on one height.

use crate::layout::Layout;
use crate::network::{Network, circuits};
use crate::style::width;
use crate::svg::{Anchor, Point, SMALL, Svg};
use crate::tree::curve;

/// The space before the arcs, and between the heights of two amounts.
const BEFORE: i32 = 28;
const APART: i32 = 16;
/// A name is told again where its line is longer than this.
const LONG: i32 = 90;

/// An arc: the rows of its ends, and its outermost point.
struct Arc {
    rows: [i32; 2],
    apex: Point,
    amount: u64,
}

/// All arcs of a network.
pub struct Arcs {
    /// How wide they and the tree are together, and how high.
    pub size: Point,
    /// Where names that are told again begin, and where arcs begin.
    rail: [i32; 2],
    all: Vec<Arc>,
}

/// Which sites are ends of pairs.
pub fn are_paired(network: &Network) -> Vec<bool> {
    let mut are_paired = vec![false; network.kinds.len()];
    for pair in &network.report.pairs {
        for site in pair.sites {
            are_paired[site] = true;
        }
    }
    are_paired
}

/// The row of a site in which its line leads to the arcs.
fn row(layout: &Layout, site: usize) -> i32 {
    let place = layout.sites[site];
    place.row.unwrap_or(place.y)
}

/// Whether the name of a site is told again before the arcs.
fn is_told_again(layout: &Layout, site: usize) -> bool {
    let place = layout.sites[site];
    layout.size[0] - place.left - place.width > LONG
}

impl Arcs {
    /// Finds room for the arcs, beside a tree that is laid out with rows for all ends of pairs.
    pub fn new(network: &Network, layout: &Layout) -> Self {
        let ends = are_paired(network);
        let told = (0..ends.len()).filter(|&site| ends[site] && is_told_again(layout, site));
        let widths = told.map(|site| SMALL.width(network.report.names[site]) + 6);
        let names = layout.size[0] + BEFORE;
        let rail = [names, names + widths.max().unwrap_or(0)];
        let mut arcs: Vec<Arc> = Vec::new();
        for pair in &network.report.pairs {
            let mut rows = pair.sites.map(|site| row(layout, site));
            rows.sort_unstable();
            let out = BEFORE + ((rows[1] - rows[0]) / 2).min(480);
            arcs.push(Arc {
                rows,
                apex: [rail[1] + out, i32::midpoint(rows[0], rows[1])],
                amount: pair.amount,
            });
        }
        arcs.sort_by_key(|arc| arc.apex[1]);
        part(&mut arcs);
        let right = |arc: &Arc| arc.apex[0] + 8 + SMALL.width(&circuits(arc.amount));
        let bottom = arcs.last().map_or(0, |arc| arc.apex[1] + APART);
        let across = arcs.iter().map(right).max().unwrap_or(layout.size[0]);
        Arcs {
            size: [across, bottom.max(layout.size[1])],
            rail,
            all: arcs,
        }
    }

    /// Draws the arcs.
    pub fn draw(&self, svg: &mut Svg, origin: Point, network: &Network, layout: &Layout) {
        let ends = are_paired(network);
        for site in (0..ends.len()).filter(|&site| ends[site]) {
            self.draw_lead(svg, origin, layout, site, network.report.names[site]);
        }
        let largest = self.all.iter().map(|arc| arc.amount).max().unwrap_or(0);
        for arc in &self.all {
            let tenths = width(arc.amount, largest) * 6 / 10;
            svg.path("arc", tenths, &self.way(origin, arc));
        }
        for arc in &self.all {
            let at = [origin[0] + arc.apex[0] + 8, origin[1] + arc.apex[1] + 4];
            svg.text("halo", SMALL, Anchor::Start, at, &circuits(arc.amount));
        }
    }

    /// Draws the line from a site to where its arcs begin.
    fn draw_lead(&self, svg: &mut Svg, origin: Point, layout: &Layout, site: usize, name: &str) {
        let [across, down] = origin;
        let place = layout.sites[site];
        let row = down + row(layout, site);
        let is_told_again = is_told_again(layout, site);
        let end = across + self.rail[1]
            - if is_told_again {
                SMALL.width(name) + 6
            } else {
                0
            };
        let from = [across + place.left + place.width, down + place.y];
        let way = curve(from, place.fan.map(|x| across + x), [end - 4, row]);
        svg.path("lead", 12, &way);
        if is_told_again {
            svg.text("muted", SMALL, Anchor::Start, [end, row + 4], name);
        }
    }

    fn way(&self, [across, down]: Point, arc: &Arc) -> String {
        let start = across + self.rail[1];
        let [x, y] = [across + arc.apex[0], down + arc.apex[1]];
        let [first, last] = arc.rows.map(|row| down + row);
        let turn = start + (x - start) * 2 / 3;
        let [above, below] = [y - (y - first) / 3, y + (last - y) / 3];
        format!(
            "M{start} {first}C{turn} {first} {x} {above} {x} {y}C{x} {below} {turn} {last} {start} {last}"
        )
    }
}

/// Moves the outermost points of arcs, which are sorted by their heights, down where they are too close.
fn part(arcs: &mut [Arc]) {
    let mut least = 0;
    for arc in arcs {
        arc.apex[1] = arc.apex[1].max(least);
        least = arc.apex[1] + APART;
    }
}
