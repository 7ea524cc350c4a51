//! End sets: the terminal cuts that show the plan cannot be larger.

use crate::network::Network;
use crate::planted::{Error, planted};
use crate::tree::RootedTree;
use crate::trim::Balanced;
use crate::{PLACES, Site};

/// The end sets of a tree.
pub struct TerminalCuts {
    /// The end whose set holds each site, if one does.
    owner: [Option<Site>; PLACES],
    /// For each end, the sum of capacities of links with one site in its set.
    size: [u32; PLACES],
    /// For each end, the number of sites in its set.
    site_count: [u16; PLACES],
    /// The sum of all sizes.
    total: u32,
}

impl TerminalCuts {
    #[inline]
    pub fn owner(&self, site: Site) -> Option<Site> {
        self.owner[usize::from(site)]
    }

    #[inline]
    pub fn size(&self, terminal: Site) -> u32 {
        self.size[usize::from(terminal)]
    }

    #[inline]
    pub fn site_count(&self, terminal: Site) -> u16 {
        self.site_count[usize::from(terminal)]
    }

    pub fn total(&self) -> u32 {
        self.total
    }

    /// The end sets in which each site has the owner that is put at its place, or none. (They are put where
    /// they stay, as a copy would take its time.)
    #[inline]
    pub fn of_owners(network: &Network, put: impl FnOnce(&mut [Option<Site>; PLACES])) -> Self {
        let mut cuts = TerminalCuts {
            owner: [None; PLACES],
            size: [0; PLACES],
            site_count: [0; PLACES],
            total: 0,
        };
        put(&mut cuts.owner);
        for owner in cuts.owner[..network.site_count()].iter().flatten() {
            cuts.site_count[usize::from(*owner)] += 1;
        }
        for link in network.links() {
            let [first, second] = link.sites.map(|site| cuts.owner[usize::from(site)]);
            if first != second {
                for owner in [first, second].into_iter().flatten() {
                    if planted(Error::OneLinkCounted) && network.is_marked(owner) {
                        cuts.size[usize::from(owner)] = 0;
                    }
                    cuts.size[usize::from(owner)] += link.capacity;
                    cuts.total += link.capacity;
                }
            }
        }
        cuts
    }
}

/// Works out the set of each end: the sites reached from it over links trimmed below their capacity, up
/// to other ends. No site is reached from two ends.
pub fn terminal_cuts(network: &Network, tree: &RootedTree, balanced: &Balanced) -> TerminalCuts {
    if planted(Error::SetsByGiven) {
        return reached(network, &tree.with_given_sizes(network), balanced);
    }
    reached(network, tree, balanced)
}

/// The same with the capacities of a tree.
#[inline(always)]
fn reached(network: &Network, tree: &RootedTree, balanced: &Balanced) -> TerminalCuts {
    let is_trimmed =
        |site| balanced.capacity(site) < tree.capacity(site) || planted(Error::SetsOverFull);
    TerminalCuts::of_owners(network, |owner| {
        if tree.is_terminal(tree.root()) {
            owner[usize::from(tree.root())] = Some(tree.root());
        }
        for &site in tree.leaves_first() {
            if tree.is_terminal(site) {
                owner[usize::from(site)] = Some(site);
            }
            let own = owner[usize::from(site)];
            let parent = tree.parent(site);
            if own.is_some() && is_trimmed(site) && !tree.is_terminal(parent) {
                owner[usize::from(parent)] = own;
            }
        }
        if !planted(Error::UpwardSets) {
            for &site in tree.leaves_first().iter().rev() {
                if is_trimmed(site) && !tree.is_terminal(site) {
                    owner[usize::from(site)] = owner[usize::from(tree.parent(site))];
                }
            }
        }
    })
}
