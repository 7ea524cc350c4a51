//! A sheet and its report read back, and what reports of either heading must fulfil.
//!
//! Names are looked up in either case. In a report each must be spelt as on its site's own line. The
//! usable size of a link is worked out here from its own line; everything goes by it.

use report::{Lines, number, read};
use std::collections::HashMap;

/// A network read back from a sheet that was accepted.
pub struct Network<'sheet> {
    /// The name of each site as its own line spells it.
    pub names: Vec<&'sheet [u8]>,
    /// Whether the line of each site marks it.
    is_marked: Vec<bool>,
    /// The site of each name, in capitals.
    number: HashMap<[u8; NAME_BYTES], usize>,
    pub links: Vec<Link>,
    /// For each site its links: their numbers and their other sites.
    pub around: Vec<Vec<(usize, usize)>>,
}

/// The most bytes a name may have.
const NAME_BYTES: usize = 12;

/// Two sites, and the amount between them.
pub type Pair = ([usize; 2], u64);

pub struct Link {
    pub sites: [usize; 2],
    /// Its size less its reserve.
    pub usable: u64,
}

impl<'sheet> Network<'sheet> {
    /// Reads a sheet that was accepted.
    pub fn read(sheet: &'sheet [u8]) -> Result<Self, String> {
        Self::read_lines(sheet).ok_or("the sheet cannot be read back".to_string())
    }

    fn read_lines(sheet: &'sheet [u8]) -> Option<Self> {
        let mut network = Network {
            names: Vec::new(),
            is_marked: Vec::new(),
            number: HashMap::new(),
            links: Vec::new(),
            around: Vec::new(),
        };
        for line in sheet.split(|&byte| byte == b'\n').skip(1) {
            let fields: Vec<&[u8]> = line.split(|&byte| byte == b'\t').collect();
            match fields[..] {
                [letter @ (b"N" | b"T"), name] => {
                    network.number.insert(capitals(name)?, network.names.len());
                    network.names.push(name);
                    network.is_marked.push(letter == b"T");
                    network.around.push(Vec::new());
                }
                [b"L", first, second, ref sizes @ ..] => {
                    let sites = [network.site(first)?, network.site(second)?];
                    let link = network.links.len();
                    network.around[sites[0]].push((link, sites[1]));
                    network.around[sites[1]].push((link, sites[0]));
                    let usable = usable_size(sizes)?;
                    network.links.push(Link { sites, usable });
                }
                _ => (),
            }
        }
        Some(network)
    }

    /// The site of a name in either case.
    pub fn site(&self, name: &[u8]) -> Option<usize> {
        self.number.get(&capitals(name)?).copied()
    }

    /// Whether a name is that of a site, in either case.
    pub fn is_name(&self, name: &[u8], site: usize) -> bool {
        self.names[site].eq_ignore_ascii_case(name)
    }

    /// Checks that every name in a report, whose lines are known to have the right fields, is byte
    /// for byte that on its site's own line.
    pub fn check_spelling(&self, report: &[u8]) -> Result<(), String> {
        for line in report.split(|&byte| byte == b'\n') {
            let mut fields = line.split(|&byte| byte == b'\t');
            let names = match fields.next() {
                Some(b"L" | b"N" | b"P") => 2,
                Some(b"X") => 1,
                _ => 0,
            };
            for name in fields.take(names).filter(|name| *name != b"-") {
                let own = self.site(name).map(|site| self.names[site]);
                demand(
                    own == Some(name),
                    "a name is spelt otherwise than on its site's line",
                )?;
            }
        }
        Ok(())
    }

    /// Whether a site is an end: has just one link, or is marked.
    pub fn is_end(&self, site: usize) -> bool {
        self.around[site].len() == 1 || self.is_marked[site]
    }

    pub fn ends(&self) -> impl Iterator<Item = usize> {
        (0..self.names.len()).filter(|&site| self.is_end(site))
    }

    /// Whether there is an end with more than one link.
    pub fn has_inner_end(&self) -> bool {
        self.ends().any(|end| self.around[end].len() > 1)
    }

    /// For each site its parent and the link to it, counted from site 0, and its depth.
    fn parents(&self) -> (Vec<(usize, usize)>, Vec<usize>) {
        let mut parent = vec![(usize::MAX, usize::MAX); self.names.len()];
        let mut depth = vec![0; self.names.len()];
        let mut reached = vec![0];
        while let Some(site) = reached.pop() {
            for &(link, other) in &self.around[site] {
                if other != parent[site].0 {
                    parent[other] = (site, link);
                    depth[other] = depth[site] + 1;
                    reached.push(other);
                }
            }
        }
        (parent, depth)
    }

    /// Calls `see` with each link on the path of each pair of sites, the site it leads to on the way from
    /// one of these, and the pair with its amount.
    fn walk(&self, pairs: &[Pair], mut see: impl FnMut(usize, usize, &Pair)) {
        let (parent, depth) = self.parents();
        for pair in pairs {
            let [mut one, mut other] = pair.0;
            while one != other {
                if depth[one] < depth[other] {
                    (one, other) = (other, one);
                }
                let (above, link) = parent[one];
                see(link, above, pair);
                one = above;
            }
        }
    }

    /// The load of each link, given the amount between each pair of sites.
    pub fn loads(&self, pairs: &[Pair]) -> Vec<u64> {
        let mut loads = vec![0; self.links.len()];
        self.walk(pairs, |link, _, (_, amount)| loads[link] += amount);
        loads
    }

    /// Whether no pair has an end on its path other than its own two.
    fn are_free(&self, pairs: &[Pair]) -> bool {
        let mut are_free = true;
        self.walk(pairs, |_, site, (ends, _)| {
            are_free &= ends.contains(&site) || !self.is_end(site);
        });
        are_free
    }
}

/// A name with a-z read as A-Z, followed by zero bytes.
fn capitals(name: &[u8]) -> Option<[u8; NAME_BYTES]> {
    let mut capitals = [0; NAME_BYTES];
    capitals.get_mut(..name.len())?.copy_from_slice(name);
    capitals.make_ascii_uppercase();
    Some(capitals)
}

/// The usable size, given the fields of a link line behind its names: the size, and the reserve if
/// there is one.
pub fn usable_size(fields: &[&[u8]]) -> Option<u64> {
    match fields {
        [size] => number(size),
        [size, reserve] => number(size)?.checked_sub(number(reserve)?),
        _ => None,
    }
}

impl Network<'_> {
    /// The number behind the names and the usable size of a link on its line.
    pub fn link_line(&self, lines: &mut Lines, link: &Link) -> Result<u64, String> {
        let [first, second, usable, printed] = lines.next("L")?;
        let [one, other] = link.sites;
        demand(
            self.is_name(first, one) && self.is_name(second, other),
            "a link has other names",
        )?;
        demand(
            read(usable)? == link.usable,
            "a link has another usable size",
        )?;
        read(printed)
    }

    /// The sum of the sizes of all end sets on their lines, when `owner` tells the owner of each
    /// site: an end, or none.
    pub fn set_lines(&self, lines: &mut Lines, owner: &[Option<usize>]) -> Result<u64, String> {
        let mut sizes = vec![0; owner.len()];
        let mut counts = vec![0; owner.len()];
        for (site, own) in owner.iter().enumerate() {
            let Some(end) = *own else { continue };
            counts[end] += 1;
            for &(link, other) in &self.around[site] {
                if owner[other] != *own {
                    sizes[end] += self.links[link].usable;
                }
            }
        }
        for end in self.ends() {
            let [name, size, count] = lines.next("X")?;
            demand(self.is_name(name, end), "an end set has another name")?;
            demand(read(size)? == sizes[end], "an end set has another size")?;
            demand(read(count)? == counts[end], "an end set has another count")?;
        }
        Ok(sizes.iter().sum())
    }

    /// The pairs that end the report: two ends each with no other end between them, the lower number first,
    /// ascending, at most as many as links, with amounts above 0.
    pub fn pair_lines(&self, lines: &mut Lines, count: u64) -> Result<Vec<Pair>, String> {
        demand(
            count <= self.links.len() as u64,
            "there are more pairs than links",
        )?;
        let mut pairs: Vec<Pair> = Vec::new();
        for _ in 0..count {
            let [first, second, amount] = lines.next("P")?;
            let [Some(first), Some(second)] = [first, second].map(|name| self.site(name)) else {
                return Err("a pair has an unknown name".to_string());
            };
            let sites = [first, second];
            demand(first < second, "a pair names its later site first")?;
            demand(
                pairs.last().is_none_or(|&(before, _)| before < sites),
                "pairs are out of order",
            )?;
            demand(
                self.is_end(first) && self.is_end(second),
                "a pair names a joint",
            )?;
            pairs.push((sites, read(amount)?));
            demand(read(amount)? > 0, "a pair has nothing")?;
        }
        demand(lines.rest.is_empty(), "the report goes on after its pairs")?;
        demand(self.are_free(&pairs), "a pair has another end on its path")?;
        Ok(pairs)
    }
}

/// Says what is wrong unless a demand is fulfilled.
pub fn demand(fulfilled: bool, text: &str) -> Result<(), String> {
    if fulfilled {
        Ok(())
    } else {
        Err(text.to_string())
    }
}
