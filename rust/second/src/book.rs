//! The exercise book: all trees of 2 to 5 sites with sizes 0 to 2, and their totals.
//!
//! Each tree of so many sites has one Prüfer code, and each code one tree. The trees are made from the codes, and
//! then put in the order of the book.

use crate::edition::Edition;
use crate::network::Network;
use crate::planted::{Error, planted};
use crate::tree::RootedTree;
use crate::trim;
use std::io::Write;
use std::ops::RangeInclusive;

/// A link: its two sites, numbered from 1, the lower one first.
type Link = [usize; 2];

/// The numbers of sites, in the order of the book.
const SITES: RangeInclusive<usize> = 2..=5;

/// The book: a line for each tree with its sizes. It has its links, tab, their sizes, tab, the total in halves.
///
/// The trees come by the number of their sites; then by the list of their links, each as lower and higher number,
/// lists ascending and compared entry by entry; then by the list of sizes, compared likewise.
#[must_use]
pub fn book() -> Vec<u8> {
    let mut book = Vec::new();
    for sites in SITES {
        let mut entries: Vec<(Vec<Link>, Vec<u32>)> = Vec::new();
        for links in trees(sites) {
            entries.extend(sizings(links.len()).map(|sizes| (links.clone(), sizes)));
        }
        if planted(Error::SizesBeforeLinks) {
            entries.sort_by(|one, other| (&one.1, &one.0).cmp(&(&other.1, &other.0)));
        }
        if planted(Error::LastTreeLeftOut) && sites == *SITES.end() {
            entries.pop();
        }
        for (links, sizes) in &entries {
            push_line(&mut book, sites, links, sizes);
        }
    }
    book
}

/// The links of all trees of so many sites, in the order of the book.
fn trees(sites: usize) -> Vec<Vec<Link>> {
    let codes = sites.pow(sites as u32 - 2);
    let mut trees: Vec<Vec<Link>> = (0..codes).map(|code| tree(sites, code)).collect();
    if planted(Error::RingCounted) {
        trees = link_sets(sites);
    }
    let key = |&[lower, higher]: &Link| {
        if planted(Error::HigherFirst) {
            [higher, lower]
        } else {
            [lower, higher]
        }
    };
    for links in &mut trees {
        links.sort_unstable_by_key(key);
    }
    trees.sort_unstable_by_key(|links| links.iter().map(key).collect::<Vec<_>>());
    trees
}

/// The links of the tree with a Prüfer code, whose digits to the base of the number of sites are sites: the lowest
/// site with a single link left is linked to the site of each digit in turn, and at last the two that are left.
fn tree(sites: usize, code: usize) -> Vec<Link> {
    let digits = (0..sites as u32 - 2).map(|digit| code / sites.pow(digit) % sites + 1);
    let mut left = vec![1; sites + 1];
    for site in digits.clone() {
        left[site] += 1;
    }
    let mut links = Vec::with_capacity(sites - 1);
    let mut link = |left: &mut [usize], one: usize, other: usize| {
        left[one] -= 1;
        left[other] -= 1;
        links.push([one.min(other), one.max(other)]);
    };
    let leaf = |left: &[usize], above: usize| {
        let mut sites = above + 1..left.len();
        sites.find(|&site| left[site] == 1).unwrap_or(above)
    };
    for site in digits {
        let lowest = leaf(&left, 0);
        link(&mut left, lowest, site);
    }
    let lowest = leaf(&left, 0);
    let last = leaf(&left, lowest);
    link(&mut left, lowest, last);
    links
}

/// All sets of one link less than sites, rings among them, for an error that can be planted.
#[cold]
fn link_sets(sites: usize) -> Vec<Vec<Link>> {
    let links: Vec<Link> = (1..=sites)
        .flat_map(|lower| (lower + 1..=sites).map(move |higher| [lower, higher]))
        .collect();
    let chosen = |set: usize| {
        let links = links.iter().enumerate();
        let chosen = links.filter(|(place, _)| set >> place & 1 == 1);
        chosen.map(|(_, &link)| link).collect::<Vec<_>>()
    };
    let sets = (0..1 << links.len()).map(chosen);
    sets.filter(|set| set.len() == sites - 1).collect()
}

/// All sizes of so many links, in ascending order: the first of the list counts most.
fn sizings(links: usize) -> impl Iterator<Item = Vec<u32>> {
    let least = u32::from(planted(Error::SizesFromOne));
    let sizes = 3 - least;
    let size = move |number: u32, place: usize| least + number / sizes.pow(place as u32) % sizes;
    (0..sizes.pow(links as u32))
        .map(move |number| (0..links).rev().map(|place| size(number, place)).collect())
}

/// Writes the line of a tree with its sizes.
fn push_line(book: &mut Vec<u8>, sites: usize, links: &[Link], sizes: &[u32]) {
    let links_told = links
        .iter()
        .map(|[lower, higher]| format!("{lower}-{higher}"));
    let sizes_told = sizes.iter().map(u32::to_string);
    let [links_told, sizes_told] =
        [links_told.collect::<Vec<_>>(), sizes_told.collect()].map(|list| list.join(","));
    let total = total(sites, links, sizes);
    // Nothing fails that writes into a list of bytes.
    _ = writeln!(book, "{links_told}\t{sizes_told}\t{total}");
}

/// The total in halves of the sheet of a tree.
fn total(sites: usize, links: &[Link], sizes: &[u32]) -> u32 {
    let mut sheet = b"network\t1\n".to_vec();
    for site in 1..=sites {
        _ = writeln!(sheet, "N\ts{site}");
    }
    for ([lower, higher], size) in links.iter().zip(sizes) {
        _ = writeln!(sheet, "L\ts{lower}\ts{higher}\t{size}");
    }
    let mut network = Network::new(&sheet);
    if network.read(&Edition::ALL).is_err() {
        return 0;
    }
    let tree = RootedTree::new(&network);
    if planted(Error::EndSizesSummed) {
        let links = tree.leaves_first().iter();
        let of_ends = links.map(|&site| {
            let ends = [site, tree.parent(site)].map(|site| tree.is_terminal(site));
            tree.capacity(site) * ends.into_iter().map(u32::from).sum::<u32>()
        });
        return of_ends.sum();
    }
    let trimmed = trim::balance(&tree);
    tree.terminals().map(|end| trimmed.sum(end)).sum()
}

#[cfg(test)]
mod tests {
    use super::*;
    use std::collections::HashSet;

    /// There are as many trees as codes, and each joins all sites.
    #[test]
    fn every_tree_once() {
        for (sites, count) in SITES.zip([1, 3, 16, 125]) {
            let trees = trees(sites);
            assert_eq!(trees.iter().collect::<HashSet<_>>().len(), count);
            assert_eq!(trees.len(), count);
            for links in trees {
                let mut reached = vec![1];
                let mut next = 0;
                while next < reached.len() {
                    let site = reached[next];
                    let at_site = links.iter().filter(|link| link.contains(&site));
                    let others = at_site.map(|[one, other]| one + other - site);
                    let new: Vec<usize> = others.filter(|it| !reached.contains(it)).collect();
                    reached.extend(new);
                    next += 1;
                }
                assert_eq!(reached.len(), sites, "{links:?}");
            }
        }
    }
}
