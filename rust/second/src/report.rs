//! Writing the report.

use crate::cuts::TerminalCuts;
use crate::names::Name;
use crate::network::{Link, Network};
use crate::pairs::Pairs;
use crate::planted::{Error, planted};
use crate::tree::RootedTree;
use crate::trim::Balanced;
use crate::{CAPACITY, SITES, Site};

/// No report is longer: the heading and the odd pieces, then for each site and link lines with
/// names of 12 bytes and numbers of 7 digits at most, but for a set size of 9.
const LONGEST: usize = 40 + SITES * (44 + 28 + 30 + 36);

/// What a report shows beside the network.
pub struct Shown<'planned> {
    pub heading: &'static [u8],
    /// The total in halves.
    pub total: u32,
    /// The trimmed sizes, or the loads.
    pub balanced: &'planned Balanced,
    pub cuts: &'planned TerminalCuts,
    /// The number of odd pieces, where there is a line for them.
    pub odd_pieces: Option<u32>,
    pub pairs: &'planned Pairs,
}

/// Writes the whole report.
pub fn write(network: &Network, tree: &RootedTree, shown: &Shown) -> Vec<u8> {
    let Shown {
        balanced,
        cuts,
        pairs,
        ..
    } = shown;
    let mut text = Vec::with_capacity(LONGEST);
    text.extend_from_slice(shown.heading);
    text.push(b'\t');
    push_sum(&mut text, shown.total);
    text.push(b'\t');
    push_number(&mut text, pairs.as_slice().len() as u32);
    text.push(b'\n');

    for link in network.links() {
        if let Some(line) = network.line(link) {
            text.extend_from_slice(line);
        } else {
            push_ends(&mut text, network, link);
            push_size(&mut text, network, link);
        }
        text.push(b'\t');
        push_number(&mut text, balanced.capacity(tree.child(link.sites)));
        text.push(b'\n');
    }
    for (site, &name) in network.names().iter().enumerate() {
        let is_marked = planted(Error::MarkPrinted) && network.is_marked(site as Site);
        text.extend_from_slice(if is_marked { b"T\t" } else { b"N\t" });
        push_name(&mut text, name);
        match cuts.owner(site as Site) {
            Some(owner) => {
                text.push(b'\t');
                push_name(&mut text, network.name(owner));
                text.push(b'\n');
            }
            None => text.extend_from_slice(b"\t-\n"),
        }
    }
    for (site, &name) in network.names().iter().enumerate() {
        let site = site as Site;
        let is_left_out = planted(Error::MarkedWithoutSet) && tree.is_inner_terminal(site);
        if tree.is_terminal(site) && !is_left_out {
            text.extend_from_slice(b"X\t");
            push_name(&mut text, name);
            text.push(b'\t');
            push_sum(&mut text, cuts.size(site));
            text.push(b'\t');
            push_number(&mut text, u32::from(cuts.site_count(site)));
            text.push(b'\n');
        }
    }
    if let Some(odd_pieces) = shown.odd_pieces {
        text.extend_from_slice(b"Q\t");
        push_number(&mut text, odd_pieces);
        text.push(b'\n');
    }
    push_pairs(&mut text, network, pairs);
    text
}

/// Writes the letter of a link and the names of its sites.
pub fn push_ends(text: &mut Vec<u8>, network: &Network, link: &Link) {
    text.push(b'L');
    for site in link.sites {
        text.push(b'\t');
        push_name(text, network.name(site));
    }
}

/// Writes the usable size of a link.
fn push_size(text: &mut Vec<u8>, network: &Network, link: &Link) {
    text.push(b'\t');
    let size = if planted(Error::GivenPrinted) {
        network.given_size(link)
    } else {
        link.capacity
    };
    push_number(text, size);
}

/// Writes the lines of the pairs.
pub fn push_pairs(text: &mut Vec<u8>, network: &Network, pairs: &Pairs) {
    for pair in pairs.as_slice() {
        let [first, second] = pair.sites;
        text.extend_from_slice(b"P\t");
        push_name(text, network.name(first));
        text.push(b'\t');
        push_name(text, network.name(second));
        text.push(b'\t');
        push_number(text, pair.halves);
        text.push(b'\n');
    }
}

/// Writes a name.
#[inline(always)]
pub fn push_name(text: &mut Vec<u8>, name: Name) {
    // A fixed number of bytes is quick to copy; those past the name come off again.
    let length = text.len() + name.length();
    text.extend_from_slice(&name.bytes());
    text.truncate(length);
}

/// Writes a number below 100,000,000 in decimal.
#[inline(always)]
pub fn push_number(text: &mut Vec<u8>, number: u32) {
    const { assert!(2 * CAPACITY < 100_000_000) };
    if number < 10 {
        text.push(b'0' + number as u8);
        return;
    }
    // All eight digits at once, the first in the lowest byte: split into fours, pairs and ones.
    let fours = u64::from(number / 10_000) | (u64::from(number % 10_000) << 32);
    let hundreds = ((fours * 10_486) >> 20) & 0x0000_007f_0000_007f;
    let pairs = hundreds | ((fours - 100 * hundreds) << 16);
    let tens = ((pairs * 103) >> 10) & 0x000f_000f_000f_000f;
    let digits = tens | ((pairs - 10 * tens) << 8);
    let leading_zeros = digits.trailing_zeros() / 8;
    let letters = (digits | 0x3030_3030_3030_3030) >> (8 * leading_zeros);
    let length = text.len() + 8 - leading_zeros as usize;
    text.extend_from_slice(&letters.to_le_bytes());
    text.truncate(length);
}

/// Writes a number in decimal that is seldom 100,000,000 or more: an end may have many links.
#[inline(always)]
pub fn push_sum(text: &mut Vec<u8>, number: u32) {
    if number < 100_000_000 {
        push_number(text, number);
    } else {
        push_large_number(text, number);
    }
}

/// Writes any number in decimal.
#[cold]
fn push_large_number(text: &mut Vec<u8>, number: u32) {
    text.extend_from_slice(number.to_string().as_bytes());
}

#[cfg(test)]
mod tests {
    use super::*;

    fn written(number: u32) -> String {
        let mut text = Vec::new();
        push_number(&mut text, number);
        String::from_utf8(text).unwrap()
    }

    #[test]
    fn numbers_are_written_in_decimal() {
        for number in (0..=2 * CAPACITY).step_by(7).chain(0..=20_000) {
            assert_eq!(written(number), number.to_string());
        }
        let mut power = 1;
        while power < 100_000_000 {
            for number in [power - 1, power, power + 1] {
                assert_eq!(written(number), number.to_string());
            }
            power *= 10;
        }
        assert_eq!(written(99_999_999), "99999999");
        for number in [99_999_999, 100_000_000, 510_000_000, u32::MAX] {
            let mut text = Vec::new();
            push_sum(&mut text, number);
            assert_eq!(text, number.to_string().into_bytes());
        }
    }
}
