//! End sets and odd pieces of a largest plan in whole circuits: they show that none is larger.

use crate::cuts::TerminalCuts;
use crate::forest::Forest;
use crate::network::Network;
use crate::planted::{Error, planted};
use crate::tree::RootedTree;
use crate::trim::Balanced;
use crate::{PLACES, Site};

/// Works out the set of each end, as source document 004 does in its lemma 13.
///
/// From the end that starts a part its joints are reached over links that could carry two circuits more.
/// From another end of the part they are reached over links towards that one that could carry one more,
/// and from there away from it over links that could carry two more.
pub fn end_sets(
    network: &Network,
    tree: &RootedTree,
    forest: &Forest,
    loads: &Balanced,
) -> TerminalCuts {
    let spare = |site| {
        let child = tree.child([site, forest.parent(site)]);
        forest.capacity(site) - loads.capacity(child)
    };
    let spread_down = |owner: &mut [Option<Site>; PLACES]| {
        let least = if planted(Error::SpareOfOne) { 1 } else { 2 };
        for site in forest.roots_first() {
            if owner[usize::from(site)].is_none() && spare(site) >= least {
                owner[usize::from(site)] = owner[usize::from(forest.parent(site))];
            }
        }
    };
    TerminalCuts::of_owners(network, |owner| {
        for end in tree.terminals() {
            owner[usize::from(end)] = Some(end);
        }
        spread_down(owner);
        for site in forest.roots_first().rev() {
            let parent = usize::from(forest.parent(site));
            if owner[parent].is_none() && spare(site) > 0 {
                owner[parent] = owner[usize::from(site)];
            }
        }
        spread_down(owner);
    })
}

/// Counts the odd pieces: the largest groups of sites in no set, connected over links of a
/// capacity above 0, whose leaving links sum to an odd number.
///
/// A link inside a piece counts at both its sites, so a piece is odd if the capacities at its
/// sites sum to an odd number.
pub fn odd_pieces(
    network: &Network,
    tree: &RootedTree,
    cuts: &TerminalCuts,
    loads: &Balanced,
) -> u32 {
    if planted(Error::PiecesByGiven) {
        return counted(network, &tree.with_given_sizes(network), cuts, loads);
    }
    counted(network, tree, cuts, loads)
}

/// The same with the capacities of a tree.
#[inline(always)]
fn counted(network: &Network, tree: &RootedTree, cuts: &TerminalCuts, loads: &Balanced) -> u32 {
    let mut is_odd = [false; PLACES];
    for &child in tree.leaves_first() {
        for site in [child, tree.parent(child)] {
            is_odd[usize::from(site)] ^= tree.capacity(child) & 1 == 1;
        }
    }
    if planted(Error::OddByLoads) {
        is_odd = std::array::from_fn(|site| loads.sum(site as Site) & 1 == 1);
    }
    let connects = |site| tree.capacity(site) > 0 || planted(Error::JoinedOverZero);
    let mut count = 0;
    for &site in tree.leaves_first().iter().chain([&tree.root()]) {
        let parent = tree.parent(site);
        if cuts.owner(site).is_some() {
            continue;
        }
        if site != parent && cuts.owner(parent).is_none() && connects(site) {
            is_odd[usize::from(parent)] ^= is_odd[usize::from(site)];
        } else if !(planted(Error::CutOffSites) && is_cut_off(network, cuts, site)) {
            count += u32::from(is_odd[usize::from(site)]);
        }
    }
    count
}

/// Whether a site has a link of capacity 0, and by all others an owned site.
fn is_cut_off(network: &Network, cuts: &TerminalCuts, site: Site) -> bool {
    let mut has_zero = false;
    for link in network.links() {
        if link.sites.contains(&site) {
            has_zero |= link.capacity == 0;
            let is_owned = |&other: &Site| other == site || cuts.owner(other).is_some();
            if link.capacity > 0 && !link.sites.iter().all(is_owned) {
                return false;
            }
        }
    }
    has_zero
}
