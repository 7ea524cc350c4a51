//! Random pairs of sheets of neighbouring regions: such as share one link, such as do not for one reason alone, and
//! such as are refused; and all small pairs.

use crate::cases::in_either_case;
use crate::joined::{Due, due, far_sites, link_between, site};
use crate::tried::Refused;
use crate::{Edition, Layout, Names, Network, Random, SITES, SIZE, Shape, Sizes, Spelling};
use crate::{prufer_links, some_reserve};

/// The sheets of two regions, and what is due of them.
#[derive(Clone, Debug)]
pub struct Case {
    /// What the pair is.
    pub kind: Kind,
    /// The trees that the sheets tell, unless one is refused, their links in the order of the lines.
    pub networks: [Network; 2],
    /// The sheets.
    pub sheets: [Vec<u8>; 2],
    /// What is due with lists that are long enough.
    pub due: Due,
}

/// What a pair of sheets is.
#[derive(Clone, Copy, Debug, PartialEq, Eq)]
pub enum Kind {
    /// The regions share one link.
    Shared,
    /// They do not, for one reason alone.
    Broken(Broken),
    /// One sheet is refused, or both are.
    Refused,
}

/// Why two regions do not share one link.
#[derive(Clone, Copy, Debug, PartialEq, Eq)]
pub enum Broken {
    /// They have no name in common.
    NoName,
    /// They have one name in common.
    OneName,
    /// They have three names in common.
    ThreeNames,
    /// In one of the sheets no link joins the two names.
    NoLink,
    /// The link has other usable sizes.
    UsableSizes,
    /// It has other usable sizes, while the given ones are the same.
    Reserves,
    /// A far site is marked.
    MarkedFar,
    /// A far site has two links.
    FarWithLinks,
    /// The same name is that of the far site in both sheets.
    FarOnOneSide,
}

impl Broken {
    /// All reasons.
    pub const ALL: [Broken; 9] = [
        Broken::NoName,
        Broken::OneName,
        Broken::ThreeNames,
        Broken::NoLink,
        Broken::UsableSizes,
        Broken::Reserves,
        Broken::MarkedFar,
        Broken::FarWithLinks,
        Broken::FarOnOneSide,
    ];
}

/// The case with an index among those of a seed: half the pairs share one link, most of the others do not for
/// one reason alone, and some have a sheet out of `refused`, or two.
#[must_use]
pub fn case(seed: u64, index: u64, refused: &[Refused]) -> Case {
    let start = Random::new(seed).bits() ^ index.wrapping_mul(0x9e6c_63d0_876a_3f6b);
    let mut random = Random::new(start);
    let random = &mut random;
    match random.below(8) {
        0..=3 => Case::of(Kind::Shared, any_shared(random), random),
        4..=6 => {
            let broken = *random.pick(&Broken::ALL);
            Case::of(Kind::Broken(broken), any_broken(broken, random), random)
        }
        _ => any_refused(refused, random),
    }
}

impl Case {
    fn of(kind: Kind, mut networks: [Network; 2], random: &mut Random) -> Case {
        let sheets = networks.each_mut().map(|network| {
            let sheet = network.sheet(Layout::any(random), random);
            put_in_order(network, &sheet);
            sheet
        });
        Case {
            kind,
            due: due(networks.each_ref()),
            networks,
            sheets,
        }
    }

    /// How many links each region has.
    #[must_use]
    pub fn links(&self) -> [usize; 2] {
        self.networks.each_ref().map(|network| network.links.len())
    }
}

/// Puts the links of a network in the order of their lines in its sheet.
fn put_in_order(network: &mut Network, sheet: &[u8]) {
    let lines = sheet.split(|&byte| byte == b'\n');
    let lines = lines.filter(|line| line.starts_with(b"L\t"));
    let link = |line: &[u8]| {
        let mut fields = line.split(|&byte| byte == b'\t').skip(1);
        let mut next = || site(network, fields.next()?);
        link_between(network, [next()?, next()?])
    };
    let order: Vec<usize> = lines.filter_map(link).collect();
    network.links = order.iter().map(|&link| network.links[link]).collect();
    network.sizes = order.iter().map(|&link| network.sizes[link]).collect();
    network.reserves = order.iter().map(|&link| network.reserves[link]).collect();
}

/// A tree with its link to be cut.
fn tree_to_cut(random: &mut Random) -> (Network, usize) {
    let most = match random.below(40) {
        0 => 2 * SITES - 2,
        1 => SITES,
        _ => *random.pick(&[2, 3, 4, 6, 9, 20]),
    };
    let network = Network::any(most, random);
    let link = random.below(network.links.len());
    (network, link)
}

/// Two regions that share one link.
fn any_shared(random: &mut Random) -> [Network; 2] {
    loop {
        let (network, link) = tree_to_cut(random);
        let regions = cut(&network, link, random);
        if regions.iter().all(|region| region.names.len() <= SITES) {
            return regions;
        }
    }
}

/// Two regions that share one link, each with a link more at its own site of it.
fn any_inner(random: &mut Random) -> [Network; 2] {
    loop {
        let regions = any_shared(random);
        if regions
            .iter()
            .all(|region| (3..SITES).contains(&region.names.len()))
        {
            return regions;
        }
    }
}

/// The two sides of a link, each with the link and its site on the other side, which is not marked. The size of
/// the link is told anew in each.
fn cut(network: &Network, link: usize, random: &mut Random) -> [Network; 2] {
    let mut is_first = vec![false; network.names.len()];
    let around = network.around();
    let [start, other] = network.links[link];
    let mut reached = vec![start];
    while let Some(site) = reached.pop() {
        is_first[site] = true;
        let links = around[site].iter().filter(|&&(it, _)| it != link);
        reached.extend(links.map(|&(_, next)| next).filter(|&next| !is_first[next]));
    }
    let mut sides = [true, false];
    random.shuffle(&mut sides);
    sides.map(|side| {
        let far = if side { other } else { start };
        let is_in = |&site: &usize| is_first[site] == side || site == far;
        let sites: Vec<usize> = (0..network.names.len()).filter(is_in).collect();
        region(network, &sites, far, link, random)
    })
}

/// The region with some of the sites.
fn region(
    network: &Network,
    sites: &[usize],
    far: usize,
    shared: usize,
    random: &mut Random,
) -> Network {
    let number = |site: &usize| sites.binary_search(site).ok();
    let mut region = network.clone();
    region.names = sites
        .iter()
        .map(|&site| network.names[site].clone())
        .collect();
    region.marks = sites
        .iter()
        .map(|&site| network.marks[site] && site != far)
        .collect();
    (region.links, region.sizes, region.reserves) = Default::default();
    for (link, [one, other]) in network.links.iter().enumerate() {
        let (Some(one), Some(other)) = (number(one), number(other)) else {
            continue;
        };
        let mut sites = [one, other];
        let (mut size, mut reserve) = (network.sizes[link], network.reserves[link]);
        if link == shared {
            random.shuffle(&mut sites);
            let usable = size - reserve.unwrap_or(0);
            let held_back = some_reserve(SIZE - usable, random);
            reserve = random.once_in(2).then_some(held_back);
            size = usable + reserve.unwrap_or(0);
        }
        region.links.push(sites);
        region.sizes.push(size);
        region.reserves.push(reserve);
    }
    dress(&mut region, random);
    region
}

/// Spells the names of a region in its own way, and chooses its edition.
fn dress(region: &mut Network, random: &mut Random) {
    if random.once_in(2) {
        region.spelling = Spelling::EitherCase;
        for name in &mut region.names {
            *name = in_either_case(name, random);
        }
    }
    region.edition = Edition::with_sites(region.names.len());
    if random.once_in(4) {
        region.edition = Edition::Two;
    }
}

/// A name that neither region has.
fn fresh(regions: &[Network; 2], random: &mut Random) -> Vec<u8> {
    loop {
        let name = format!("new{}", random.below(1_000)).into_bytes();
        if regions.iter().all(|region| site(region, &name).is_none()) {
            return name;
        }
    }
}

/// Adds an unmarked site that is linked to another.
fn attach(region: &mut Network, to: usize, name: Vec<u8>, random: &mut Random) {
    region.links.push([to, region.names.len()]);
    region.names.push(name);
    region.marks.push(false);
    region.sizes.push(random.below(5) as u32);
    region.reserves.push(None);
    if region.names.len() > region.edition.sites() {
        region.edition = Edition::Two;
    }
}

/// Two regions that do not share one link, for one reason alone.
fn any_broken(broken: Broken, random: &mut Random) -> [Network; 2] {
    loop {
        let mut regions = any_inner(random);
        if breaks(broken, &mut regions, random) {
            return regions;
        }
    }
}

/// Breaks one condition in one of two regions that share a link; false if that cannot be done.
fn breaks(broken: Broken, regions: &mut [Network; 2], random: &mut Random) -> bool {
    let far_sites = far_sites(regions.each_ref()).expect("they share a link");
    let which = random.below(2);
    let name = fresh(regions, random);
    let [region, other] = &mut regions.each_mut();
    if which == 1 {
        std::mem::swap(region, other);
    }
    let far = far_sites[which];
    let near = site(region, &other.names[far_sites[1 - which]]).expect("it is in common");
    let shared = link_between(region, [far, near]).expect("it is shared");
    let usable = region.usable_sizes()[shared];
    match broken {
        Broken::NoName => {
            region.names[near] = [&name[..], b"b"].concat();
            region.names[far] = name;
        }
        Broken::OneName => region.names[*random.pick(&[far, near])] = name,
        Broken::ThreeNames => share_third(region, [far, near], other, random),
        Broken::NoLink => {
            region.links[shared] = [region.names.len(), near];
            attach(region, far, name, random);
        }
        Broken::UsableSizes => {
            let is_more = usable == 0 || (usable < SIZE && random.once_in(2));
            region.sizes[shared] = if is_more { usable + 1 } else { usable - 1 };
            region.reserves[shared] = None;
        }
        Broken::Reserves => return share_given(region, other, shared),
        Broken::MarkedFar => region.marks[far] = true,
        Broken::FarWithLinks => attach(region, far, name, random),
        Broken::FarOnOneSide => region.names.swap(far, near),
    }
    true
}

/// Gives one of the sites of a region that are not shared the name of such a site of the other.
fn share_third(region: &mut Network, shared: [usize; 2], other: &Network, random: &mut Random) {
    let sites = 0..region.names.len();
    let own: Vec<usize> = sites.filter(|site| !shared.contains(site)).collect();
    let mut names = other.names.iter();
    let name = names.find(|name| site(region, name).is_none());
    let name = name.expect("it has a site that is not shared");
    region.names[*random.pick(&own)] = in_either_case(name, random);
}

/// Gives the shared link the same size in both regions, of which one circuit is held back in the first alone; false
/// if there is none.
fn share_given(region: &mut Network, other: &mut Network, shared: usize) -> bool {
    let usable = region.usable_sizes()[shared];
    let names = region.links[shared].map(|it| &region.names[it]);
    let sites = names.map(|name| site(other, name).expect("it is in common"));
    let other_shared = link_between(other, sites).expect("it is shared");
    other.sizes[other_shared] = usable;
    other.reserves[other_shared] = None;
    region.sizes[shared] = usable;
    region.reserves[shared] = Some(1);
    usable > 0
}

/// Two sheets of which one is refused, or both.
fn any_refused(refused: &[Refused], random: &mut Random) -> Case {
    let regions = any_shared(random);
    let mut case = Case::of(Kind::Refused, regions, random);
    let which = random.pick::<&[usize]>(&[&[0], &[1], &[1, 0]]);
    for &region in *which {
        let tried = random.pick(refused);
        case.sheets[region].clone_from(&tried.sheet);
        case.due = Due::Refused(region as u8 + 1, tried.number, tried.line);
    }
    case
}

/// Calls `see` with all pairs of regions of 2 to `most` sites, the first of them far and linked to the second, with
/// sizes 0 to 2, that share this link; with all sets of marks or with none. Returns how many.
///
/// # Errors
///
/// The first that `see` returns.
pub fn every_small_pair<Failure>(
    most: usize,
    has_marks: bool,
    mut see: impl FnMut(&Case) -> Result<(), Failure>,
) -> Result<usize, Failure> {
    let [ones, others] = [["x", "y", "a", "b"], ["Y", "X", "c", "d"]]
        .map(|names| small_regions(&names[..most], has_marks));
    let mut count = 0;
    for one in &ones {
        for other in &others {
            if one.sizes[0] == other.sizes[0] {
                let networks = [one.clone(), other.clone()];
                let random = &mut Random::new(count as u64);
                see(&Case::of(Kind::Shared, networks, random))?;
                count += 1;
            }
        }
    }
    Ok(count)
}

/// All regions with the first 2, 3 or more of these names.
fn small_regions(names: &[&str], has_marks: bool) -> Vec<Network> {
    let mut regions = Vec::new();
    for sites in 2..=names.len() {
        let own = sites - 1;
        for tree in 0..own.pow(own.saturating_sub(2) as u32) {
            let links = small_links(own, tree);
            for sizes in 0..3_usize.pow(own as u32) {
                for marks in 0..if has_marks { 1 << own } else { 1 } {
                    regions.push(small_region(&names[..sites], &links, sizes, 2 * marks));
                }
            }
        }
    }
    regions
}

/// The links of the far site and of a tree of so many others, told by a number.
fn small_links(own: usize, tree: usize) -> Vec<[usize; 2]> {
    let digit = |place: usize| tree / own.pow(place as u32) % own;
    let sequence: Vec<usize> = (0..own.saturating_sub(2)).map(digit).collect();
    let mut links = vec![[0, 1]];
    if own > 1 {
        let inner = prufer_links(&sequence).into_iter();
        links.extend(inner.map(|link| link.map(|site| site + 1)));
    }
    links
}

/// The region with sizes told by the digits to base 3 of a number, and marks by the bits of another.
fn small_region(names: &[&str], links: &[[usize; 2]], sizes: usize, marks: usize) -> Network {
    let size = |link: usize| (sizes / 3_usize.pow(link as u32) % 3) as u32;
    Network {
        edition: Edition::One,
        names: names.iter().map(|name| name.as_bytes().to_vec()).collect(),
        marks: (0..names.len())
            .map(|site| marks >> site & 1 == 1)
            .collect(),
        links: links.to_vec(),
        sizes: (0..links.len()).map(size).collect(),
        reserves: vec![None; links.len()],
        spelling: Spelling::AsGiven,
    }
}

/// The sheets of two regions that share one link, each a tree of a shape with so many sites, one of its ends being the
/// far site: long names, and large sizes.
#[must_use]
pub fn largest(shape: Shape, sites: usize, random: &mut Random) -> [Vec<u8>; 2] {
    let mut names = Names::Long.list(2 * sites, random);
    let [mut one, mut other] = [sites, 0].map(|first| {
        let mut region = Network::random(shape, sites, Sizes::Large, Names::Long, random);
        region.names = names.split_off(first);
        region
    });
    let [
        (shared, [far, near]),
        (other_shared, [other_far, other_near]),
    ] = [&one, &other].map(end_link);
    one.names[far].clone_from(&other.names[other_near]);
    other.names[other_far].clone_from(&one.names[near]);
    other.sizes[other_shared] = one.sizes[shared];
    [one, other].map(|region| region.sheet(Layout::Mixed, random))
}

/// A link of an end, with the end and its other site.
fn end_link(network: &Network) -> (usize, [usize; 2]) {
    let links = network.links.iter().enumerate();
    let mut turned =
        links.flat_map(|(link, &[one, other])| [(link, [one, other]), (link, [other, one])]);
    let found = turned.find(|&(_, [end, _])| network.is_end(end));
    found.expect("a tree has ends")
}
