//! Sheets that hold the same records in other orders, and what their reports must agree in.

use crate::cases::in_either_case;
use crate::logs::tree;
use crate::{Edition, Layout, Network, Random, Spelling};
use std::collections::BTreeMap;

/// A tree, and two sheets of its records.
#[derive(Clone, Debug)]
pub struct Case {
    /// The tree.
    pub network: Network,
    /// The sheets.
    pub sheets: [Vec<u8>; 2],
}

/// The case with an index among those of a seed. A quarter of the sheets at least are of edition 2.
#[must_use]
pub fn case(seed: u64, index: u64) -> Case {
    let start = Random::new(seed).bits() ^ index.wrapping_mul(0x8cb9_2ba7_2f3d_8dd7);
    let mut random = Random::new(start);
    let mut network = tree(&mut random);
    if random.once_in(4) {
        network.edition = Edition::Two;
    }
    let other = shuffled(&network, &mut random);
    let sheets = [&network, &other].map(|it| it.sheet(Layout::any(&mut random), &mut random));
    Case { network, sheets }
}

/// The same network with its sites and links in other orders, names of links exchanged, and at times names in
/// another case and reserves of 0 told or left out.
fn shuffled(network: &Network, random: &mut Random) -> Network {
    let mut sites: Vec<usize> = (0..network.names.len()).collect();
    if !random.once_in(4) {
        random.shuffle(&mut sites);
    }
    let mut other = with_sites(network, &sites);
    let mut order: Vec<usize> = (0..other.links.len()).collect();
    if !random.once_in(4) {
        random.shuffle(&mut order);
    }
    other.links = order.iter().map(|&link| other.links[link]).collect();
    other.sizes = order.iter().map(|&link| network.sizes[link]).collect();
    other.reserves = order.iter().map(|&link| network.reserves[link]).collect();
    for sites in &mut other.links {
        random.shuffle(sites);
    }
    if random.once_in(2) {
        other.spelling = Spelling::EitherCase;
        for name in &mut other.names {
            *name = in_either_case(name, random);
        }
    }
    if random.once_in(2) {
        for reserve in &mut other.reserves {
            match reserve {
                None if random.once_in(3) => *reserve = Some(0),
                Some(0) if random.once_in(3) => *reserve = None,
                _ => (),
            }
        }
    }
    other
}

/// The same network with its sites in another order, told by their numbers in this one.
fn with_sites(network: &Network, order: &[usize]) -> Network {
    let mut number = vec![0; order.len()];
    for (place, &site) in order.iter().enumerate() {
        number[site] = place;
    }
    let links = network.links.iter();
    Network {
        names: order
            .iter()
            .map(|&site| network.names[site].clone())
            .collect(),
        marks: order.iter().map(|&site| network.marks[site]).collect(),
        links: links.map(|link| link.map(|site| number[site])).collect(),
        ..network.clone()
    }
}

/// The sheets of a small network with its sites in all orders.
#[must_use]
pub fn every_order(network: &Network) -> Vec<Vec<u8>> {
    let sites: Vec<usize> = (0..network.names.len()).collect();
    let mut orders = vec![Vec::new()];
    for _ in &sites {
        orders = orders
            .iter()
            .flat_map(|order: &Vec<usize>| {
                let left = sites.iter().filter(|site| !order.contains(site));
                left.map(|&site| [&order[..], &[site]].concat())
            })
            .collect();
    }
    let sheet = |order: &Vec<usize>| {
        with_sites(network, order).sheet(Layout::SitesFirst, &mut Random::new(0))
    };
    orders.iter().map(sheet).collect()
}

/// A name in capitals.
type Name = Vec<u8>;

/// What the reports headed `plan` of two sheets with the same records agree in, all names in capitals.
#[derive(Clone, Debug, PartialEq, Eq)]
pub struct Agreed {
    /// The total in halves.
    pub total: u64,
    /// The usable and the trimmed size of each link, by its two names in ascending order.
    pub links: BTreeMap<[Name; 2], [u64; 2]>,
    /// The end whose set holds each site, or `-`.
    pub owners: BTreeMap<Name, Name>,
    /// The size of the set of each end, and the count of its sites.
    pub sets: BTreeMap<Name, [u64; 2]>,
}

impl Agreed {
    /// Reads a report; none if it has not the form of one, or tells something twice.
    #[must_use]
    pub fn read(report: &[u8]) -> Option<Self> {
        let mut agreed = Agreed {
            total: total(report)?,
            links: BTreeMap::new(),
            owners: BTreeMap::new(),
            sets: BTreeMap::new(),
        };
        for line in report.split(|&byte| byte == b'\n').skip(1) {
            let fields: Vec<&[u8]> = line.split(|&byte| byte == b'\t').collect();
            let is_new = match fields[..] {
                [b"L", one, other, usable, trimmed] => {
                    let mut names = [one, other].map(<[u8]>::to_ascii_uppercase);
                    names.sort_unstable();
                    let sizes = [number(usable)?, number(trimmed)?];
                    agreed.links.insert(names, sizes).is_none()
                }
                [b"N", site, owner] => {
                    let [site, owner] = [site, owner].map(<[u8]>::to_ascii_uppercase);
                    agreed.owners.insert(site, owner).is_none()
                }
                [b"X", end, size, count] => {
                    let set = [number(size)?, number(count)?];
                    agreed.sets.insert(end.to_ascii_uppercase(), set).is_none()
                }
                [b"P", ..] | [b""] => true,
                _ => false,
            };
            if !is_new {
                return None;
            }
        }
        Some(agreed)
    }
}

/// The total in the heading of a report.
#[must_use]
pub fn total(report: &[u8]) -> Option<u64> {
    let heading = report.split(|&byte| byte == b'\n').next()?;
    number(heading.split(|&byte| byte == b'\t').nth(1)?)
}

fn number(field: &[u8]) -> Option<u64> {
    std::str::from_utf8(field).ok()?.parse().ok()
}
