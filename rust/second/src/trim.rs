//! Trimmed sizes: the greatest capacities, link by link, that leave no joint with a heavy link.

use crate::planted::{Error, planted};
use crate::tree::RootedTree;
use crate::{PLACES, Site};

/// Balanced capacities: no link is heavy at a joint.
pub struct Balanced {
    /// The capacity of the link from each site to its parent; 0 at the root.
    capacity: [u32; PLACES],
    /// The sum of the capacities at each site.
    sum: [u32; PLACES],
}

impl Balanced {
    /// Balanced capacities of the links from each site to its parent.
    pub fn new(tree: &RootedTree, capacity: &[u32; PLACES]) -> Self {
        let mut sum = [0; PLACES];
        for &site in tree.leaves_first() {
            sum[usize::from(site)] += capacity[usize::from(site)];
            sum[usize::from(tree.parent(site))] += capacity[usize::from(site)];
        }
        Balanced {
            capacity: *capacity,
            sum,
        }
    }

    #[inline]
    pub fn capacity(&self, site: Site) -> u32 {
        self.capacity[usize::from(site)]
    }

    #[inline]
    pub fn sum(&self, site: Site) -> u32 {
        self.sum[usize::from(site)]
    }
}

/// Trims the capacities of a tree.
///
/// From the leaves up, a joint's link to its parent is cut down to the sum of the child links below it.
/// Then, from the root down, a joint's child link is cut down to the sum of its other links. The
/// second pass leaves every link to a parent as light as the first made it, and at most one child
/// link of a joint is heavy.
pub fn balance(tree: &RootedTree) -> Balanced {
    if planted(Error::CutToLinksAbove) {
        return in_two_passes(&tree.cut_to_links_above());
    }
    if planted(Error::CutToLargest) {
        return cut_to_largest(tree);
    }
    in_two_passes(tree)
}

#[inline]
fn in_two_passes(tree: &RootedTree) -> Balanced {
    let mut capacity = [0; PLACES];
    let mut sum = [0; PLACES];
    for &site in tree.leaves_first() {
        let given = tree.capacity(site);
        let trimmed = if is_cut_at(tree, site) {
            given.min(sum[usize::from(site)])
        } else {
            given
        };
        capacity[usize::from(site)] = trimmed;
        sum[usize::from(tree.parent(site))] += trimmed;
    }
    for &site in tree.leaves_first().iter().rev() {
        let parent = tree.parent(site);
        let trimmed = &mut capacity[usize::from(site)];
        let at_parent = &mut sum[usize::from(parent)];
        let is_cut = is_heavy(*trimmed, *at_parent) && is_cut_at(tree, parent);
        if is_cut && !planted(Error::CutInwardAlone) {
            let others = *at_parent - *trimmed;
            *trimmed = others;
            *at_parent = 2 * others;
        }
        sum[usize::from(site)] += *trimmed;
    }
    Balanced { capacity, sum }
}

/// The same where a link is held against the largest other link of its joint, for an error that can be planted.
#[cold]
fn cut_to_largest(tree: &RootedTree) -> Balanced {
    let mut capacity = [0; PLACES];
    for &site in tree.leaves_first() {
        capacity[usize::from(site)] = tree.capacity(site);
    }
    let largest_but = |capacity: &[u32; PLACES], joint: Site, link: Site| {
        let links = tree.children(joint).chain([joint]);
        let others = links.filter(|&other| other != link);
        others.map(|other| capacity[usize::from(other)]).max()
    };
    let inward = tree.leaves_first().iter().map(|&site| [site, site]);
    let outward = tree.leaves_first().iter().rev();
    for [joint, link] in inward.chain(outward.map(|&site| [tree.parent(site), site])) {
        let largest = largest_but(&capacity, joint, link);
        if let Some(largest) = largest.filter(|_| is_cut_at(tree, joint)) {
            let cut = &mut capacity[usize::from(link)];
            *cut = largest.min(*cut);
        }
    }
    Balanced::new(tree, &capacity)
}

/// Whether heavy links are cut at a site: it is a joint.
#[inline]
fn is_cut_at(tree: &RootedTree, site: Site) -> bool {
    if planted(Error::MarkedTrimmed) && tree.is_inner_terminal(site) {
        return true;
    }
    !tree.is_terminal(site)
}

/// Whether a child link is larger than all other links of its joint together.
#[inline]
fn is_heavy(capacity: u32, sum: u32) -> bool {
    if planted(Error::RoundedHalf) {
        return capacity > sum.div_ceil(2);
    }
    capacity > sum - capacity
}
