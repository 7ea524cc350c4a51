//! Random trees, and their sheets.

use crate::bare::is_bare;
use crate::cases::in_either_case;
use crate::{Edition, Random, SIZE};
use std::collections::HashSet;
use std::ops::RangeInclusive;

/// The shape of a tree.
#[derive(Clone, Copy, Debug, PartialEq, Eq)]
pub enum Shape {
    /// One joint with all other sites around it.
    Star,
    /// One line of sites.
    Path,
    /// A line of half the sites with the other half around its last site.
    Broom,
    /// A line of sites with ends along it.
    Caterpillar,
    /// Paths of like length from one joint.
    Spider,
    /// Every joint has two sites below it.
    Binary,
    /// Each site is linked to a random earlier one.
    Attached,
    /// Each site is linked to one of the few sites before it.
    Drawn,
    /// All labelled trees are equally likely.
    Prufer,
}

/// All shapes.
pub const SHAPES: [Shape; 9] = [
    Shape::Star,
    Shape::Path,
    Shape::Broom,
    Shape::Caterpillar,
    Shape::Spider,
    Shape::Binary,
    Shape::Attached,
    Shape::Drawn,
    Shape::Prufer,
];

impl Shape {
    /// The name of the shape.
    #[must_use]
    pub fn name(self) -> &'static str {
        match self {
            Shape::Star => "star",
            Shape::Path => "path",
            Shape::Broom => "broom",
            Shape::Caterpillar => "caterpillar",
            Shape::Spider => "spider",
            Shape::Binary => "binary",
            Shape::Attached => "random attachment",
            Shape::Drawn => "long random",
            Shape::Prufer => "random labelled",
        }
    }

    /// The links of a tree of this shape, over sites numbered from 0.
    pub fn links(self, sites: usize, random: &mut Random) -> Vec<[usize; 2]> {
        if self == Shape::Prufer {
            let sequence: Vec<usize> = (2..sites).map(|_| random.below(sites)).collect();
            return prufer_links(&sequence);
        }
        let legs = random.between(3, 8);
        let mut towards = |site: usize| match self {
            Shape::Star => 0,
            Shape::Broom => (site - 1).min(sites / 2),
            Shape::Caterpillar if site > sites / 2 => random.below(sites / 2 + 1),
            Shape::Path | Shape::Caterpillar => site - 1,
            Shape::Spider => site.saturating_sub(legs),
            Shape::Binary => (site - 1) / 2,
            Shape::Attached | Shape::Prufer => random.below(site),
            Shape::Drawn => site - 1 - random.below(site.min(4)),
        };
        (1..sites).map(|site| [towards(site), site]).collect()
    }
}

/// The links of the labelled tree with this Prüfer sequence: two sites more than the sequence
/// is long.
#[must_use]
pub fn prufer_links(sequence: &[usize]) -> Vec<[usize; 2]> {
    let sites = sequence.len() + 2;
    let mut missing_links = vec![1; sites];
    for &site in sequence {
        missing_links[site] += 1;
    }
    let mut links = Vec::with_capacity(sites - 1);
    // The lowest end is the one looked for next, unless a link just taken left a lower one.
    let mut lowest = 0;
    let mut left_over = None;
    for &site in sequence {
        let end = left_over.take().unwrap_or_else(|| {
            while missing_links[lowest] != 1 {
                lowest += 1;
            }
            lowest += 1;
            lowest - 1
        });
        links.push([site, end]);
        missing_links[end] -= 1;
        missing_links[site] -= 1;
        if missing_links[site] == 1 && site < lowest {
            left_over = Some(site);
        }
    }
    let mut last = (0..sites).filter(|&site| missing_links[site] == 1);
    if let (Some(first), Some(second)) = (last.next(), last.next()) {
        links.push([first, second]);
    }
    links
}

/// How sizes are drawn.
#[derive(Clone, Copy, Debug, PartialEq, Eq)]
pub enum Sizes {
    /// All 1.
    Ones,
    /// 0, 1 or 2.
    Tiny,
    /// 0 to 20.
    Small,
    /// 1 to 1,000,000, all equally likely.
    Wide,
    /// All numbers of digits equally likely.
    Scaled,
    /// Mostly 0.
    Sparse,
    /// 0 or 1,000,000, or next to them.
    Extreme,
    /// Nearly all alike, so that many joints are nearly balanced.
    Alike,
    /// 1,000,000 less a little: the longest numbers with the most pairs.
    Large,
}

/// All ways of drawing sizes.
pub const SIZES: [Sizes; 9] = [
    Sizes::Ones,
    Sizes::Tiny,
    Sizes::Small,
    Sizes::Wide,
    Sizes::Scaled,
    Sizes::Sparse,
    Sizes::Extreme,
    Sizes::Alike,
    Sizes::Large,
];

impl Sizes {
    fn draw(self, random: &mut Random) -> u32 {
        let largest = SIZE as usize;
        let size = match self {
            Sizes::Ones => 1,
            Sizes::Tiny => random.below(3),
            Sizes::Small => random.between(0, 20),
            Sizes::Wide => random.between(1, largest),
            Sizes::Scaled => {
                let digits = random.between(0, 6) as u32;
                random.below(10_usize.pow(digits) + 1)
            }
            Sizes::Sparse if random.once_in(4) => random.between(0, 9),
            Sizes::Sparse => 0,
            Sizes::Extreme => *random.pick(&[0, 1, 2, largest / 2, largest - 1, largest]),
            Sizes::Alike => random.between(99, 101),
            Sizes::Large => random.between(largest - 1_000, largest),
        };
        size as u32
    }
}

/// How names are drawn.
#[derive(Clone, Copy, Debug, PartialEq, Eq)]
pub enum Names {
    /// `s` and a number, in order.
    Counted,
    /// 1 to 12 random bytes.
    Any,
    /// 12 random bytes.
    Long,
    /// 12 bytes, alike but for the last two.
    Alike,
    /// A few letters in either case, over and over, and a digit that is close to one of them.
    Cases,
    /// 1 to 12 digits with a letter in the place of one of them.
    Digits,
}

const LETTERS: &[u8; 62] = b"ABCDEFGHIJKLMNOPQRSTUVWXYZabcdefghijklmnopqrstuvwxyz0123456789";

/// So many letters and digits out of some.
pub(crate) fn letters(from: &[u8], count: usize, random: &mut Random) -> Vec<u8> {
    (0..count).map(|_| *random.pick(from)).collect()
}

impl Names {
    const ALL: [Names; 6] = [
        Names::Counted,
        Names::Any,
        Names::Long,
        Names::Alike,
        Names::Cases,
        Names::Digits,
    ];

    /// One of the ways.
    pub fn any(random: &mut Random) -> Self {
        *random.pick(&Self::ALL)
    }

    fn draw(self, number: usize, random: &mut Random) -> Vec<u8> {
        match self {
            Names::Counted => format!("s{number}").into_bytes(),
            Names::Any => {
                let count = random.between(1, 12);
                letters(LETTERS, count, random)
            }
            Names::Long => letters(LETTERS, 12, random),
            Names::Alike => [b"AlikeAlike", letters(LETTERS, 2, random).as_slice()].concat(),
            Names::Cases => {
                let count = random.between(1, 12);
                letters(b"qQpP0", count, random)
            }
            Names::Digits => {
                let count = random.between(1, 12);
                let mut name = letters(b"0123456789", count, random);
                name[random.below(count)] = *random.pick(b"aAfFqQpPzZ");
                name
            }
        }
    }

    /// Names for `count` sites, different in either case, and none a bare number.
    pub fn list(self, count: usize, random: &mut Random) -> Vec<Vec<u8>> {
        let mut taken = HashSet::with_capacity(count);
        (0..count)
            .map(|number| {
                loop {
                    let name = self.draw(number, random);
                    if !is_bare(&name) && taken.insert(name.to_ascii_uppercase()) {
                        return name;
                    }
                }
            })
            .collect()
    }
}

/// How link lines spell the names of their sites.
#[derive(Clone, Copy, Debug, PartialEq, Eq)]
pub enum Spelling {
    /// As the lines of the sites do.
    AsGiven,
    /// In either case, each time anew.
    EitherCase,
}

/// How the lines of a sheet are laid out.
#[derive(Clone, Copy, Debug, PartialEq, Eq)]
pub enum Layout {
    /// All sites, then all links.
    SitesFirst,
    /// Each link as soon as its sites are given.
    LinksSoon,
    /// Each link at a random place after its sites.
    Mixed,
}

impl Layout {
    /// One of the layouts.
    pub fn any(random: &mut Random) -> Self {
        *random.pick(&[Layout::SitesFirst, Layout::LinksSoon, Layout::Mixed])
    }
}

/// A tree with names, marks, sizes and reserves.
#[derive(Clone, Debug)]
pub struct Network {
    /// The edition of its sheets.
    pub edition: Edition,
    /// The names of the sites, in the order of their lines.
    pub names: Vec<Vec<u8>>,
    /// Whether the line of each site marks it.
    pub marks: Vec<bool>,
    /// The two sites of each link, numbered from 0.
    pub links: Vec<[usize; 2]>,
    /// The size of each link.
    pub sizes: Vec<u32>,
    /// The reserve of each link, if its line has one; never above its size.
    pub reserves: Vec<Option<u32>>,
    /// How link lines spell names.
    pub spelling: Spelling,
}

impl Network {
    /// A random tree of the given kind with `count` sites, its sites and links in random order, without
    /// marks and reserves; of edition 2 if it has too many sites for edition 1.
    pub fn random(
        shape: Shape,
        count: usize,
        sizes: Sizes,
        names: Names,
        random: &mut Random,
    ) -> Self {
        let mut number: Vec<usize> = (0..count).collect();
        random.shuffle(&mut number);
        let mut links: Vec<[usize; 2]> = shape
            .links(count, random)
            .into_iter()
            .map(|link| {
                let mut link = link.map(|site| number[site]);
                random.shuffle(&mut link);
                link
            })
            .collect();
        random.shuffle(&mut links);
        Network {
            edition: Edition::with_sites(count),
            names: names.list(count, random),
            marks: vec![false; count],
            sizes: links.iter().map(|_| sizes.draw(random)).collect(),
            reserves: vec![None; links.len()],
            links,
            spelling: Spelling::AsGiven,
        }
    }

    /// A random tree of any kind with at most `most` sites; every second one spells all names in
    /// either case, every second one has reserves, and every second one has marks.
    pub fn any(most: usize, random: &mut Random) -> Self {
        Self::any_of(2..=most, random)
    }

    /// The same with a number of sites out of a range.
    pub fn any_of(counts: RangeInclusive<usize>, random: &mut Random) -> Self {
        let shape = *random.pick(&SHAPES);
        let sizes = *random.pick(&SIZES);
        let names = Names::any(random);
        let count = random.between(*counts.start(), *counts.end());
        let mut network = Self::random(shape, count, sizes, names, random);
        if random.once_in(2) {
            network.spelling = Spelling::EitherCase;
            for name in &mut network.names {
                *name = in_either_case(name, random);
            }
        }
        if random.once_in(2) {
            network.hold_back(random);
        }
        if random.once_in(2) {
            network.mark(random);
        }
        network
    }

    /// Marks some sites: a single one, a few, many or all.
    pub fn mark(&mut self, random: &mut Random) {
        let times = *random.pick(&[1, 2, 2, 3, 5, 10, 40]);
        for mark in &mut self.marks {
            *mark = random.once_in(times);
        }
        let one = random.below(self.marks.len());
        self.marks[one] = true;
    }

    /// Whether a site is an end: has just one link, or is marked.
    #[must_use]
    pub fn is_end(&self, site: usize) -> bool {
        let links = self.links.iter().flatten();
        self.marks[site] || links.filter(|&&it| it == site).count() == 1
    }

    /// The links at each site, each with its other site.
    #[must_use]
    pub fn around(&self) -> Vec<Vec<(usize, usize)>> {
        let mut around = vec![Vec::new(); self.names.len()];
        for (link, &[one, other]) in self.links.iter().enumerate() {
            around[one].push((link, other));
            around[other].push((link, one));
        }
        around
    }

    /// Gives some links a reserve: out of their sizes, or on top of them.
    pub fn hold_back(&mut self, random: &mut Random) {
        let times = *random.pick(&[1, 2, 2, 5]);
        let on_top = random.once_in(2);
        for (size, reserve) in self.sizes.iter_mut().zip(&mut self.reserves) {
            if random.once_in(times) {
                let held_back = some_reserve(if on_top { SIZE - *size } else { *size }, random);
                *size += if on_top { held_back } else { 0 };
                *reserve = Some(held_back);
            }
        }
    }

    /// The usable size of each link: its size less its reserve.
    #[must_use]
    pub fn usable_sizes(&self) -> Vec<u32> {
        let links = self.sizes.iter().zip(&self.reserves);
        links
            .map(|(size, reserve)| size - reserve.unwrap_or(0))
            .collect()
    }

    /// The links with their sizes in ascending order, the lower site first: the same for two
    /// networks just if they are the same tree with the same sizes.
    #[must_use]
    pub fn sized_links(&self) -> Vec<([usize; 2], u32)> {
        let ascending = |link: &[usize; 2]| [link[0].min(link[1]), link[0].max(link[1])];
        let links = self.links.iter().map(ascending);
        let mut sized: Vec<_> = links.zip(self.sizes.iter().copied()).collect();
        sized.sort_unstable();
        sized
    }

    /// The line of a site, byte 10 left off.
    #[must_use]
    pub fn site_line(&self, site: usize) -> Vec<u8> {
        let letter = if self.marks[site] { b"T" } else { b"N" };
        [letter, self.names[site].as_slice()].join(&b'\t')
    }

    /// A line of a link, byte 10 left off.
    pub fn link_line(&self, link: usize, random: &mut Random) -> Vec<u8> {
        let [first, second] = self.links[link].map(|site| match self.spelling {
            Spelling::AsGiven => self.names[site].clone(),
            Spelling::EitherCase => in_either_case(&self.names[site], random),
        });
        let size = self.sizes[link].to_string().into_bytes();
        let mut fields = vec![b"L".to_vec(), first, second, size];
        fields.extend(self.reserves[link].map(|reserve| reserve.to_string().into_bytes()));
        fields.join(&b'\t')
    }

    /// The lines of the sheet, each without its byte 10. Links keep their order, unless they
    /// are put sooner.
    pub fn lines(&self, layout: Layout, random: &mut Random) -> Vec<Vec<u8>> {
        let last_site = self.names.len() - 1;
        let mut after: Vec<Vec<usize>> = vec![Vec::new(); self.names.len()];
        for (link, [first, second]) in self.links.iter().enumerate() {
            let soonest = *first.max(second);
            let site = match layout {
                Layout::SitesFirst => last_site,
                Layout::LinksSoon => soonest,
                Layout::Mixed => random.between(soonest, last_site),
            };
            after[site].push(link);
        }
        let mut lines = vec![self.edition.heading().to_vec()];
        for (site, links) in after.iter().enumerate() {
            lines.push(self.site_line(site));
            lines.extend(links.iter().map(|&link| self.link_line(link, random)));
        }
        lines
    }

    /// The sheet.
    pub fn sheet(&self, layout: Layout, random: &mut Random) -> Vec<u8> {
        join_lines(&self.lines(layout, random))
    }
}

/// A reserve of at most `most`: often one of the least or one of the largest.
pub fn some_reserve(most: u32, random: &mut Random) -> u32 {
    match random.below(6) {
        0 => 0,
        1 => most,
        2 => most.min(1),
        3 => most.saturating_sub(1),
        4 => random.between(0, most.min(9) as usize) as u32,
        _ => random.between(0, most as usize) as u32,
    }
}

/// The lines, each ended by byte 10.
#[must_use]
pub fn join_lines(lines: &[Vec<u8>]) -> Vec<u8> {
    let mut sheet = Vec::with_capacity(lines.iter().map(|line| line.len() + 1).sum());
    for line in lines {
        sheet.extend_from_slice(line);
        sheet.push(b'\n');
    }
    sheet
}
