//! The loads of a largest plan in whole circuits.
//!
//! The method is INTEGERTREEFLOW of source document 004, for joints with any number of links: a
//! joint of many links stands for joints of three with links between them that hold any load.
//! There is no link of capacity 0 in a forest, as that algorithm asks.

use crate::PLACES;
use crate::forest::Forest;
use crate::planted::{Error, planted};
use crate::tree::RootedTree;
use crate::trim::{Balanced, balance};

/// What the links from a site down to its children may carry without loss below them.
#[derive(Clone, Copy, Default)]
struct Below {
    /// The sum of their most.
    most: u32,
    /// The greatest sum of least and most of one of them.
    widest: u32,
}

impl Below {
    /// The least that can come up from here: what the others cannot take of a dominating link,
    /// or else the odd one.
    fn least(self) -> u32 {
        let dominating = self.widest.saturating_sub(self.most);
        if planted(Error::ParityLeftOut) {
            return dominating;
        }
        dominating.max(self.most & 1)
    }
}

/// The load of each link of a largest plan in whole circuits.
pub fn loads(tree: &RootedTree, forest: &Forest) -> Balanced {
    if planted(Error::EvenSizes) {
        return balance(&tree.with_even_capacities());
    }
    let (most, below) = spans(tree, forest);
    // By site in the forest, and by child in the tree.
    let mut load = [0; PLACES];
    let mut by_child = [0; PLACES];
    for site in forest.roots_first() {
        let parent = forest.parent(site);
        let own_most = most[usize::from(site)];
        let starts_part = if planted(Error::LoadsThroughEnds) {
            forest.is_root(parent)
        } else {
            tree.is_terminal(parent)
        };
        load[usize::from(site)] = if starts_part {
            own_most
        } else {
            let all = load[usize::from(parent)] + below[usize::from(parent)].most;
            own_most.min(all - own_most)
        };
        by_child[usize::from(tree.child([site, parent]))] = load[usize::from(site)];
    }
    Balanced::new(tree, &by_child)
}

/// The most that each link can carry up without loss below it, and what comes up to each site.
///
/// A link without loss carries its least, its most, or a number of the same parity between them.
fn spans(tree: &RootedTree, forest: &Forest) -> ([u32; PLACES], [Below; PLACES]) {
    let mut most = [0; PLACES];
    let mut below = [Below::default(); PLACES];
    for site in forest.roots_first().rev() {
        let capacity = forest.capacity(site);
        let from_below = below[usize::from(site)];
        let least = from_below.least();
        let span = if tree.is_terminal(site) {
            [capacity; 2]
        } else if capacity < least {
            dominated(capacity, least)
        } else if capacity < from_below.most {
            [least, capacity - ((capacity - least) & 1)]
        } else {
            [least, from_below.most]
        };
        most[usize::from(site)] = span[1];
        let above = &mut below[usize::from(forest.parent(site))];
        above.most += span[1];
        above.widest = above.widest.max(span[0] + span[1]);
    }
    (most, below)
}

/// What a link carries that cannot take the least that comes up.
fn dominated(capacity: u32, least: u32) -> [u32; 2] {
    if planted(Error::DominatedParity) {
        return [capacity - ((least - capacity) & 1); 2];
    }
    [capacity; 2]
}
