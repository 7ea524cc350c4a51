//! The tree, rooted.

use crate::neighbours::Neighbours;
use crate::network::Network;
use crate::planted::{Error, planted};
use crate::{PLACES, Site};

/// The tree rooted at the joint of lowest number, or at the first site if all sites are ends; or one of
/// its parts.
///
/// Every site but the root has a parent, and what belongs to the link between them is kept at
/// the place of that site.
#[derive(Clone)]
pub struct RootedTree {
    root: Site,
    site_count: usize,
    /// Every site but the root, each before its parent.
    leaves_first: [Site; PLACES],
    parent: [Site; PLACES],
    degree: [Site; PLACES],
    is_end: [bool; PLACES],
    /// Whether there is a joint, and no end with more than one link.
    is_one_part: bool,
    capacity: [u32; PLACES],
    first_child: [Site; PLACES],
    next_sibling: [Site; PLACES],
}

impl RootedTree {
    /// Roots the tree of a network by taking off one leaf after the other.
    pub fn new(network: &Network) -> Self {
        Self::rooted(network, planted(Error::HighestRoot))
    }

    /// The same, but at the joint of highest number if an error is planted.
    pub fn rooted(network: &Network, at_highest: bool) -> Self {
        let mut folds = *network.folds();
        let site_count = network.site_count();
        let is_end = network.ends();
        let root = root(&is_end[..site_count], at_highest);
        let is_inner = |site: usize| is_end[site] && folds[site].degree > 1;
        let has_inner_end = network.has_marks() && (0..site_count).any(is_inner);
        let mut tree = RootedTree {
            root,
            site_count,
            leaves_first: [0; PLACES],
            parent: [root; PLACES],
            degree: [0; PLACES],
            is_end,
            is_one_part: !is_end[usize::from(root)] && !has_inner_end,
            capacity: [0; PLACES],
            first_child: [0; PLACES],
            next_sibling: [0; PLACES],
        };
        for (degree, fold) in tree.degree.iter_mut().zip(&folds[..site_count]) {
            *degree = fold.degree;
        }
        let mut taken = 0;
        for first in 0..site_count {
            let mut site = first as Site;
            while folds[usize::from(site)].degree == 1 && site != root {
                let fold = std::mem::take(&mut folds[usize::from(site)]);
                tree.leaves_first[taken] = site;
                taken += 1;
                tree.parent[usize::from(site)] = fold.neighbours;
                tree.capacity[usize::from(site)] = network.capacity(fold.links);
                let rest = &mut folds[usize::from(fold.neighbours)];
                rest.degree -= 1;
                rest.neighbours ^= site;
                rest.links ^= fold.links;
                site = fold.neighbours;
            }
        }
        tree.list_children();
        tree
    }

    /// Lists the children of every site in ascending order.
    fn list_children(&mut self) {
        // A list needs no mark for its end: the degree tells how many children there are.
        for site in (0..self.site_count).rev() {
            if site != usize::from(self.root) {
                let first = &mut self.first_child[usize::from(self.parent[site])];
                self.next_sibling[site] = std::mem::replace(first, site as Site);
            }
        }
    }

    pub fn root(&self) -> Site {
        self.root
    }

    /// The ends, in the order of their lines.
    pub fn terminals(&self) -> impl Iterator<Item = Site> {
        let sites = (0..self.site_count).map(|site| site as Site);
        sites.filter(|&site| self.is_terminal(site))
    }

    /// Every site but the root, each before its parent.
    pub fn leaves_first(&self) -> &[Site] {
        &self.leaves_first[..self.site_count - 1]
    }

    /// The parent of a site; the root's is the root.
    #[inline]
    pub fn parent(&self, site: Site) -> Site {
        self.parent[usize::from(site)]
    }

    /// Of the two sites of a link the one that is the child.
    #[inline]
    pub fn child(&self, [first, second]: [Site; 2]) -> Site {
        if self.parent(first) == second {
            first
        } else {
            second
        }
    }

    /// The capacity of the link from a site to its parent; the root's is 0.
    #[inline]
    pub fn capacity(&self, site: Site) -> u32 {
        self.capacity[usize::from(site)]
    }

    /// Gives the link from a site to its parent another capacity.
    pub fn set_capacity(&mut self, site: Site, capacity: u32) {
        self.capacity[usize::from(site)] = capacity;
    }

    /// Whether a site is an end.
    #[inline]
    pub fn is_terminal(&self, site: Site) -> bool {
        self.is_end[usize::from(site)]
    }

    /// Whether a site is an end with more than one link, at which the tree falls apart.
    #[inline]
    pub fn is_inner_terminal(&self, site: Site) -> bool {
        self.is_terminal(site) && self.degree[usize::from(site)] > 1
    }

    /// The children of a site, of a part those of a joint, in ascending order.
    #[inline]
    pub fn children(&self, site: Site) -> impl Iterator<Item = Site> {
        let count = self.degree[usize::from(site)] - Site::from(site != self.root);
        let mut child = self.first_child[usize::from(site)];
        (0..count).map(move |_| {
            let this = child;
            child = self.next_sibling[usize::from(child)];
            this
        })
    }
}

/// The parts into which the tree falls at its ends.
///
/// A joint is in one part with all its links, and with all joints linked to it. In a part every end has
/// one link. Links between two ends are parts of their own, without a joint.
impl RootedTree {
    /// Whether the tree is a single part with a joint.
    pub fn is_one_part(&self) -> bool {
        self.is_one_part
    }

    /// Calls `see` with each part that has a joint, rooted at its joint of lowest number. Capacities are not
    /// those of the part.
    pub fn each_part(&self, network: &Network, mut see: impl FnMut(&RootedTree)) {
        if self.is_terminal(self.root) {
            return;
        }
        let neighbours = Neighbours::ascending(network);
        let mut part = self.clone();
        let mut is_seen = self.is_end;
        for number in 0..self.site_count {
            let root = self.next_root(number);
            if !is_seen[usize::from(root)] {
                part.grow(root, &neighbours);
                for &site in part.leaves_first() {
                    is_seen[usize::from(site)] = true;
                }
                see(&part);
            }
        }
    }

    /// The site that is looked at for a root after so many others: in ascending order.
    #[inline]
    fn next_root(&self, number: usize) -> Site {
        if planted(Error::PartFromHighest) {
            return (self.site_count - 1 - number) as Site;
        }
        if planted(Error::OneRoot) {
            let mut roots_first = self.leaves_first().iter().rev();
            return number
                .checked_sub(1)
                .and_then(|before| roots_first.nth(before).copied())
                .unwrap_or(self.root);
        }
        number as Site
    }

    /// Makes this the part around a joint, rooted there.
    fn grow(&mut self, root: Site, neighbours: &Neighbours) {
        self.root = root;
        self.site_count = 1;
        self.parent[usize::from(root)] = root;
        let mut site = root;
        let mut next = 0;
        loop {
            if !self.is_terminal(site) {
                let above = self.parent(site);
                // The last child first: each is put before the others.
                for &child in neighbours.of(site).iter().rev() {
                    if child != above {
                        let first = &mut self.first_child[usize::from(site)];
                        self.next_sibling[usize::from(child)] = std::mem::replace(first, child);
                        self.parent[usize::from(child)] = site;
                        self.leaves_first[self.site_count - 1] = child;
                        self.site_count += 1;
                    }
                }
            }
            if next + 1 == self.site_count {
                break;
            }
            site = self.leaves_first[next];
            next += 1;
        }
        self.leaves_first[..next].reverse();
    }
}

/// Trees of other capacities, for errors that can be planted.
impl RootedTree {
    /// The sizes that are given, reserves not taken off.
    #[cold]
    pub fn with_given_sizes(&self, network: &Network) -> Self {
        let mut tree = self.clone();
        for link in network.links() {
            tree.capacity[usize::from(self.child(link.sites))] = network.given_size(link);
        }
        tree
    }

    /// The link of each joint to its parent cut to the sum of those to its children that are given above it.
    #[cold]
    pub fn cut_to_links_above(&self) -> Self {
        let mut tree = self.clone();
        for &site in self.leaves_first() {
            if !self.is_terminal(site) {
                let above = self.children(site).filter(|&child| child < site);
                let sum: u32 = above.map(|child| tree.capacity(child)).sum();
                let capacity = &mut tree.capacity[usize::from(site)];
                *capacity = sum.min(*capacity);
            }
        }
        tree
    }

    /// Even capacities.
    pub fn with_even_capacities(&self) -> Self {
        RootedTree {
            capacity: self.capacity.map(|capacity| capacity & !1),
            ..*self
        }
    }
}

/// The joint of lowest number, or the first site if there is no joint.
fn root(is_end: &[bool], at_highest: bool) -> Site {
    let is_joint = |is_end: &bool| !is_end;
    let joint = if at_highest {
        is_end.iter().rposition(is_joint)
    } else {
        is_end.iter().position(is_joint)
    };
    joint.unwrap_or(0) as Site
}
