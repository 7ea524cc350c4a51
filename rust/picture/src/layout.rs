//! Where sites and links are put, in linear time.
//!
//! The tree grows from left to right. Its root is the centre: the site, the lower-numbered one of two, from which the
//! farthest sites are as near as can be. Every site without children has a row of its own, and every other stands half
//! way between its first and its last child; so sites of one column are a row apart at least. Sites as many links from the
//! root stand in one column, and the labels of their links in the space before it.

use crate::svg::Point;

/// The height of a site.
pub const SITE_HEIGHT: i32 = 26;
/// From a row to the next, and what is added between rows of different parents.
const ROW: i32 = 36;
const BETWEEN_PARENTS: i32 = 8;
/// The room above the first row, in which the label of its link stands, and below the last.
const ABOVE: i32 = 24;
const BELOW: i32 = 18;
/// The space before and behind a label.
const SPACE: i32 = 8;

/// What a tree is that is laid out.
pub struct Tree<'network> {
    /// For each site its links: their numbers and their other sites.
    pub around: &'network [Vec<(usize, usize)>],
    /// The width of each site.
    pub sites: &'network [i32],
    /// The width of the label of each link.
    pub labels: &'network [i32],
    /// Whether a site with children has a row of its own too, above them.
    pub rows: &'network [bool],
}

/// Where a site is: its left edge, its width, and its middle line.
#[derive(Clone, Copy, Default)]
pub struct Place {
    /// The left edge.
    pub left: i32,
    /// The width.
    pub width: i32,
    /// The middle line.
    pub y: i32,
    /// The row of its own, if one was asked for.
    pub row: Option<i32>,
    /// Where the space between its column and the next begins and where lines there have parted.
    pub fan: [i32; 2],
}

/// The way of a link, from the site that is nearer to the root.
#[derive(Clone, Copy, Default)]
pub struct Route {
    /// Where it begins and ends.
    pub ends: [Point; 2],
    /// Where it leaves its first row, and where it has come to its last.
    pub fan: [i32; 2],
}

/// A tree laid out.
pub struct Layout {
    /// The size of the whole.
    pub size: Point,
    /// Where each site is.
    pub sites: Vec<Place>,
    /// The way of each link.
    pub links: Vec<Route>,
}

impl Layout {
    /// Lays a tree out.
    pub fn new(tree: &Tree) -> Self {
        let rooted = Rooted::new(tree.around);
        let rows = rows(tree, &rooted);
        let columns = columns(tree, &rooted, &rows);
        let mut sites = Vec::with_capacity(tree.sites.len());
        for (site, &width) in tree.sites.iter().enumerate() {
            let column = columns[rooted.depth[site]];
            sites.push(Place {
                left: column.left,
                width,
                y: rows.middle[site],
                row: rows.own[site],
                fan: column.fan,
            });
        }
        let links = routes(tree, &rooted, &sites);
        let right = sites.iter().map(|place| place.left + place.width).max();
        let size = [right.unwrap_or(0), rows.last + BELOW];
        Layout { size, sites, links }
    }
}

/// A tree with a root.
struct Rooted {
    /// All sites, each behind its parent.
    order: Vec<usize>,
    /// For each site but the root its parent, and the link to it.
    parent: Vec<Option<(usize, usize)>>,
    /// How many links lie between each site and the root.
    depth: Vec<usize>,
}

impl Rooted {
    fn new(around: &[Vec<(usize, usize)>]) -> Self {
        Self::at(centre(around), around)
    }

    fn at(root: usize, around: &[Vec<(usize, usize)>]) -> Self {
        let mut order = Vec::with_capacity(around.len());
        let mut parent = vec![None; around.len()];
        let mut depth = vec![0; around.len()];
        let mut reached = vec![root];
        while let Some(site) = reached.pop() {
            order.push(site);
            for &(link, other) in around[site].iter().rev() {
                if parent[site].is_none_or(|(above, _)| above != other) {
                    parent[other] = Some((site, link));
                    depth[other] = depth[site] + 1;
                    reached.push(other);
                }
            }
        }
        Rooted {
            order,
            parent,
            depth,
        }
    }

    /// The site farthest from the root, the lowest-numbered one of several.
    fn farthest(&self) -> usize {
        let deepest = self.depth.iter().max();
        let mut depths = self.depth.iter();
        depths.position(|depth| Some(depth) == deepest).unwrap_or(0)
    }
}

/// The middle of a longest path, the lower-numbered site of two.
fn centre(around: &[Vec<(usize, usize)>]) -> usize {
    let one_end = Rooted::at(0, around).farthest();
    let rooted = Rooted::at(one_end, around);
    let mut site = rooted.farthest();
    let length = rooted.depth[site];
    let mut before = site;
    for _ in 0..length.div_ceil(2) {
        before = site;
        site = rooted.parent[site].map_or(site, |(above, _)| above);
    }
    if length % 2 == 1 {
        site.min(before)
    } else {
        site
    }
}

/// The rows of the sites.
struct Rows {
    /// The middle line of each site.
    middle: Vec<i32>,
    /// The row of its own of each site with children that has one.
    own: Vec<Option<i32>>,
    /// The last row.
    last: i32,
}

/// The next row, given the one before with the parent it belongs to, and the parent that this one belongs to.
fn next_row(before: Option<(i32, usize)>, parent: usize) -> i32 {
    match before {
        None => ABOVE,
        Some((row, same)) if same == parent => row + ROW,
        Some((row, _)) => row + ROW + BETWEEN_PARENTS,
    }
}

/// Gives each site without children the next row, and every other one the middle of its children.
fn rows(tree: &Tree, rooted: &Rooted) -> Rows {
    let sites = tree.around.len();
    let mut own = vec![None; sites];
    let mut middle = vec![0; sites];
    let mut last = None;
    for &site in &rooted.order {
        let parent = rooted.parent[site].map(|(above, _)| above);
        let is_outermost = tree.around[site].len() == usize::from(parent.is_some());
        if is_outermost {
            let parent = parent.unwrap_or(site);
            middle[site] = next_row(last, parent);
            last = Some((middle[site], parent));
        } else if tree.rows[site] {
            let row = next_row(last, site);
            own[site] = Some(row);
            last = Some((row, site));
        }
    }
    put_in_the_middle(rooted, &mut middle);
    Rows {
        middle,
        own,
        last: last.map_or(0, |(row, _)| row),
    }
}

/// Puts each site with children half way between the first and the last of them.
fn put_in_the_middle(rooted: &Rooted, middle: &mut [i32]) {
    let mut span: Vec<Option<[i32; 2]>> = vec![None; middle.len()];
    for &site in rooted.order.iter().rev() {
        if let Some([first, last]) = span[site] {
            middle[site] = i32::midpoint(first, last);
        }
        if let Some((above, _)) = rooted.parent[site] {
            let [first, last] = span[above].unwrap_or([middle[site]; 2]);
            span[above] = Some([first.min(middle[site]), last.max(middle[site])]);
        }
    }
}

/// A column of sites.
#[derive(Clone, Copy, Default)]
struct Column {
    left: i32,
    /// The space behind it, up to the labels of the next column.
    fan: [i32; 2],
}

/// The columns: as wide as the widest site, with room before the next one for the lines of links to part, the more the
/// higher they go, and for their labels.
fn columns(tree: &Tree, rooted: &Rooted, rows: &Rows) -> Vec<Column> {
    let deepest = rooted.depth.iter().max().map_or(0, |depth| depth + 1);
    let mut widest = vec![0; deepest];
    let mut label = vec![0; deepest + 1];
    let mut height = vec![0; deepest + 1];
    for (site, &depth) in rooted.depth.iter().enumerate() {
        widest[depth] = widest[depth].max(tree.sites[site]);
        if let Some(row) = rows.own[site] {
            height[depth + 1] = height[depth + 1].max(rows.middle[site] - row);
        }
        if let Some((above, link)) = rooted.parent[site] {
            label[depth] = label[depth].max(tree.labels[link]);
            let middle = [site, above].map(|site| rows.middle[site]);
            height[depth] = height[depth].max((middle[0] - middle[1]).abs());
        }
    }
    let mut columns = Vec::with_capacity(deepest);
    let mut left = 0;
    for depth in 0..deepest {
        let from = left + widest[depth];
        let to = from + parting(height[depth + 1]);
        columns.push(Column {
            left,
            fan: [from, to],
        });
        left = to + label[depth + 1] + 2 * SPACE;
    }
    columns
}

/// How much room lines need that part over such a height.
fn parting(height: i32) -> i32 {
    if height == 0 {
        SPACE
    } else {
        30 + (height / 8).min(170)
    }
}

/// The ways of the links.
fn routes(tree: &Tree, rooted: &Rooted, sites: &[Place]) -> Vec<Route> {
    let mut routes = vec![Route::default(); tree.labels.len()];
    for (site, parent) in rooted.parent.iter().enumerate() {
        let Some((above, link)) = *parent else {
            continue;
        };
        let from = sites[above];
        routes[link] = Route {
            ends: [
                [from.left + from.width, from.y],
                [sites[site].left, sites[site].y],
            ],
            fan: from.fan,
        };
    }
    routes
}
