//! The order of work: always the lowest-numbered untaken site with at most one unvisited link.

use crate::neighbours::Neighbours;
use crate::network::Network;
use crate::planted::{Error, planted};
use crate::report::{push_name, push_number};
use crate::{PLACES, Site};
use std::collections::BTreeSet;

/// All sites, in the order taken.
///
/// A link is visited once one of its sites is taken: an untaken site has as many unvisited links
/// as untaken neighbours.
pub fn order(network: &Network) -> Vec<Site> {
    let neighbours = Neighbours::new(network);
    let most_unvisited = if planted(Error::TwoUnvisited) { 2 } else { 1 };
    let is_due = |site: Site, unvisited: Site| {
        unvisited <= most_unvisited || (planted(Error::MarkedTaken) && network.is_marked(site))
    };
    let mut unvisited = network.folds().map(|fold| fold.degree);
    let sites = (0..network.site_count()).map(|site| site as Site);
    let mut ready: BTreeSet<Site> = sites
        .filter(|&site| is_due(site, unvisited[usize::from(site)]))
        .collect();
    let mut is_taken = [false; PLACES];
    let mut order = Vec::with_capacity(network.site_count());
    while let Some(site) = next(&mut ready) {
        is_taken[usize::from(site)] = true;
        order.push(site);
        for &neighbour in neighbours.of(site) {
            let left = &mut unvisited[usize::from(neighbour)];
            *left -= 1;
            if is_due(neighbour, *left) && !is_taken[usize::from(neighbour)] {
                ready.insert(neighbour);
            }
        }
    }
    order
}

/// Takes the lowest of the sites that may be taken.
fn next(ready: &mut BTreeSet<Site>) -> Option<Site> {
    if planted(Error::HighestTaken) {
        return ready.pop_last();
    }
    ready.pop_first()
}

/// A line for each site in the order taken: its number, tab, its name.
pub fn lines(network: &Network) -> Vec<u8> {
    let mut text = Vec::new();
    for site in order(network) {
        push_number(&mut text, u32::from(site) + 1);
        text.push(b'\t');
        push_name(&mut text, network.name(site));
        text.push(b'\n');
    }
    text
}
