//! The largest total of a small tree in whole circuits, by trying all plans.
//!
//! Nothing of loads, end sets or pieces is used here: every pair of ends with no other end between them in
//! turn gets each amount that the links of its path have left.

use crate::exact::paths;
use sheets::Network;

/// The plans of a tree whose first pairs have their amounts already.
struct Search {
    /// The links on the path of each pair of ends.
    paths: Vec<Vec<usize>>,
    /// The links of all ends, one end after the other.
    end_links: Vec<usize>,
    /// What is left of each link.
    left: Vec<u32>,
    /// The largest total found.
    largest: u32,
}

impl Search {
    /// Tries all amounts of the pairs from `pair` on, those before having `total` together.
    fn go_on(&mut self, pair: usize, total: u32) {
        self.largest = self.largest.max(total);
        // Every further circuit takes one of a link of each of its two ends.
        let ends_left: u32 = self.end_links.iter().map(|&link| self.left[link]).sum();
        if pair == self.paths.len() || total + ends_left / 2 <= self.largest {
            return;
        }
        let path = self.paths[pair].clone();
        let most = path.iter().map(|&link| self.left[link]).min().unwrap_or(0);
        for amount in (0..=most).rev() {
            for &link in &path {
                self.left[link] -= amount;
            }
            self.go_on(pair + 1, total + amount);
            for &link in &path {
                self.left[link] += amount;
            }
        }
    }
}

/// The largest total, in circuits, of a plan that gives whole circuits to each pair of ends.
pub fn largest_total(network: &Network) -> u32 {
    let links = network.links.iter().enumerate();
    let at_ends = links.flat_map(|(link, sites)| {
        let ends = sites.iter().filter(|&&site| network.is_end(site));
        ends.map(move |_| link)
    });
    let mut search = Search {
        paths: paths(network),
        end_links: at_ends.collect(),
        left: network.usable_sizes(),
        largest: 0,
    };
    search.go_on(0, 0);
    search.largest
}
