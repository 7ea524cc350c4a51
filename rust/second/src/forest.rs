//! What links of capacity 0 leave of the tree, rooted at ends.
//!
//! A largest plan is found for each part of the tree, which has ends at its leaves only, from one of
//! them. An end inside the tree is a leaf of the part towards the root, and starts those away from it.

use crate::tree::RootedTree;
use crate::{PLACES, Site};

/// The trees into which the tree falls without its links of capacity 0, each rooted at its end of
/// lowest number. A tree without an end is left out: it carries nothing.
///
/// What belongs to the link between a site and its parent is kept at the place of that site.
pub struct Forest {
    /// The sites of all trees, each after its parent.
    roots_first: [Site; PLACES],
    count: usize,
    /// The parent of each site; that of a root is the root.
    parent: [Site; PLACES],
    capacity: [u32; PLACES],
}

impl Forest {
    /// Takes one end after the other.
    pub fn new(tree: &RootedTree) -> Self {
        let mut forest = Forest {
            roots_first: [0; PLACES],
            count: 0,
            parent: [0; PLACES],
            capacity: [0; PLACES],
        };
        let mut is_reached = [false; PLACES];
        for end in tree.terminals() {
            if !is_reached[usize::from(end)] {
                forest.grow(tree, end, &mut is_reached);
            }
        }
        forest
    }

    /// Adds the tree around a root.
    fn grow(&mut self, tree: &RootedTree, root: Site, is_reached: &mut [bool; PLACES]) {
        let mut next = self.count;
        self.push(root, root, 0);
        is_reached[usize::from(root)] = true;
        while next < self.count {
            let site = self.roots_first[next];
            let above = tree.parent(site);
            let mut reach = |other: Site, capacity| {
                if capacity > 0 && !is_reached[usize::from(other)] {
                    is_reached[usize::from(other)] = true;
                    self.push(other, site, capacity);
                }
            };
            for child in tree.children(site) {
                reach(child, tree.capacity(child));
            }
            reach(above, tree.capacity(site));
            next += 1;
        }
    }

    fn push(&mut self, site: Site, parent: Site, capacity: u32) {
        self.roots_first[self.count] = site;
        self.count += 1;
        self.parent[usize::from(site)] = parent;
        self.capacity[usize::from(site)] = capacity;
    }

    /// Every site that is no root, each after its parent.
    #[inline]
    pub fn roots_first(&self) -> impl DoubleEndedIterator<Item = Site> {
        let sites = self.roots_first[..self.count].iter().copied();
        sites.filter(|&site| !self.is_root(site))
    }

    #[inline]
    pub fn is_root(&self, site: Site) -> bool {
        self.parent(site) == site
    }

    #[inline]
    pub fn parent(&self, site: Site) -> Site {
        self.parent[usize::from(site)]
    }

    #[inline]
    pub fn capacity(&self, site: Site) -> u32 {
        self.capacity[usize::from(site)]
    }
}
