//! The report headed `span`: within what the total and the trimmed sizes lie when each link has a size between
//! a low and a high one.
//!
//! Trimmed sizes do not fall where given ones grow: they are the greatest that pass no given size. So all are least
//! with the low sizes, and greatest with the high ones, and so is the total.

use crate::edition::Edition;
use crate::network::Network;
use crate::planted::{Error, planted};
use crate::report::{push_ends, push_number, push_sum};
use crate::tree::RootedTree;
use crate::trim::{self, Balanced};
use crate::{Outcome, SITES, Site, answer};

/// No report is longer: the heading with two totals of 9 digits, then for each link a line with names of 12 bytes and
/// four numbers of 7 digits at most.
const LONGEST: usize = 25 + (SITES - 1) * 60;

/// Writes the report headed `span` on a range sheet into `buffer`.
///
/// On a refusal the buffer keeps its values; after a report the bytes past it keep theirs.
pub fn ranges(sheet: &[u8], buffer: &mut [u8]) -> Outcome {
    let known = Edition::known_for_ranges();
    answer(&mut Network::of_ranges(sheet), &known, buffer, write)
}

/// Writes the whole report; the tree has the low sizes.
fn write(network: &Network, tree: &RootedTree) -> Vec<u8> {
    let least = trim::balance(tree);
    let mut high_tree = tree.clone();
    for (link, &high) in network.links().iter().zip(network.highs()) {
        high_tree.set_capacity(tree.child(link.sites), high);
    }
    let greatest = trim::balance(&high_tree);

    let mut text = Vec::with_capacity(LONGEST);
    text.extend_from_slice(b"span\t");
    let least_total = if planted(Error::UntrimmedLeast) {
        untrimmed_total(tree)
    } else {
        total(tree, &least)
    };
    push_sum(&mut text, least_total);
    text.push(b'\t');
    push_sum(&mut text, total(tree, &greatest));
    text.push(b'\n');
    for (link, &high) in network.links().iter().zip(network.highs()) {
        let child = tree.child(link.sites);
        if let Some(line) = network.line(link) {
            text.extend_from_slice(line);
        } else {
            push_ends(&mut text, network, link);
            for size in [link.capacity, high] {
                text.push(b'\t');
                push_number(&mut text, size);
            }
        }
        text.push(b'\t');
        push_number(&mut text, least.capacity(child));
        text.push(b'\t');
        let greatest_size = if planted(Error::GreatestAmongLow) {
            among_low(tree, child, high)
        } else {
            greatest.capacity(child)
        };
        push_number(&mut text, greatest_size);
        text.push(b'\n');
    }
    text
}

/// The total in halves: the sum of trimmed sizes over the links of all ends.
fn total(tree: &RootedTree, balanced: &Balanced) -> u32 {
    tree.terminals().map(|end| balanced.sum(end)).sum()
}

/// The sum of given sizes over the links of all ends, for an error that can be planted.
#[cold]
fn untrimmed_total(tree: &RootedTree) -> u32 {
    let ends = |site: Site| {
        let sites = [site, tree.parent(site)].into_iter();
        sites.filter(|&site| tree.is_terminal(site)).count() as u32
    };
    let sites = tree.leaves_first().iter();
    sites.map(|&site| ends(site) * tree.capacity(site)).sum()
}

/// The trimmed size of a link that alone has its high size, for an error that can be planted.
#[cold]
fn among_low(tree: &RootedTree, child: Site, high: u32) -> u32 {
    let mut tree = tree.clone();
    tree.set_capacity(child, high);
    trim::balance(&tree).capacity(child)
}
