//! Random booking logs over random trees.
//!
//! They fill links and empty them, open as many pairs as may be open together, and have lines with
//! faults of every kind.

use crate::bare::bare_number;
use crate::cases::in_either_case;
use crate::ledger::{AMOUNT, LOG_BYTES, LOG_LINES, Ledger, OPEN_PAIRS, lines};
use crate::{
    Edition, Layout, Names, Network, Random, SHAPES, SITES, SIZES, Shape, Sizes, Spelling,
};
use std::rc::Rc;

/// A sheet that is accepted, the tree it tells, and a log.
#[derive(Clone, Debug)]
pub struct Case {
    /// The tree.
    pub network: Network,
    /// Its sheet.
    pub sheet: Vec<u8>,
    /// The log.
    pub log: Vec<u8>,
}

/// The case with an index among those of a seed, and what else is to be drawn for it. A quarter of the
/// sheets at least are of edition 2.
#[must_use]
pub fn case(seed: u64, index: u64) -> (Case, Random) {
    let start = Random::new(seed).bits() ^ index.wrapping_mul(0x9e6c_63d0_876a_3f6b);
    let mut random = Random::new(start);
    let random = &mut random;
    let mut case = match random.below(256) {
        0 => full_log(random),
        1..=3 => near_the_limits(random),
        4..=23 => crowd(random),
        24..=63 => lines_of_pieces(random),
        _ => traffic(random),
    };
    if random.once_in(4) {
        case.head(Edition::Two);
    }
    (case, random.clone())
}

impl Case {
    fn new(network: Network, log: Vec<u8>, random: &mut Random) -> Self {
        let sheet = network.sheet(Layout::any(random), random);
        Case {
            network,
            sheet,
            log,
        }
    }

    /// Puts the heading of an edition above the sheet.
    fn head(&mut self, edition: Edition) {
        self.network.edition = edition;
        self.sheet = edition.head(&self.sheet).expect("it has a heading");
    }
}

/// A log on its way, with what is open after its lines.
pub(crate) struct Writer<'case> {
    pub(crate) ledger: Ledger,
    network: &'case Network,
    pub(crate) ends: Vec<usize>,
    /// The ends of each part of the tree, which are free to be joined; a part stands here once for
    /// each of its ends.
    parts: Vec<Rc<[usize]>>,
    pub(crate) random: &'case mut Random,
    pub(crate) log: Vec<u8>,
}

impl<'case> Writer<'case> {
    pub(crate) fn new(network: &'case Network, random: &'case mut Random) -> Self {
        let ledger = Ledger::new(network);
        let sites = 0..network.names.len();
        Writer {
            ends: sites.filter(|&site| ledger.is_end(site)).collect(),
            parts: parts(network, &ledger),
            ledger,
            network,
            random,
            log: Vec::new(),
        }
    }

    /// Adds a line, and returns its answer.
    fn say(&mut self, line: &[u8]) -> u64 {
        self.log.extend_from_slice(line);
        self.log.push(b'\n');
        self.ledger.answer(line, true)
    }

    /// A name of a site, as the sheet spells it or in either case.
    pub(crate) fn name(&mut self, site: usize) -> Vec<u8> {
        let name = &self.network.names[site];
        if self.random.once_in(2) {
            in_either_case(name, self.random)
        } else {
            name.clone()
        }
    }

    /// Adds a line for two sites in either order, and returns its answer.
    pub(crate) fn ask(&mut self, letter: &[u8], mut sites: [usize; 2], halves: u64) -> u64 {
        self.random.shuffle(&mut sites);
        let [first, second] = sites.map(|site| self.name(site));
        let halves = halves.to_string();
        self.say(&[letter, &first, &second, halves.as_bytes()].join(&b'\t'))
    }

    /// Two different ends, the lower one first, mostly free to be joined.
    pub(crate) fn two_ends(&mut self) -> [usize; 2] {
        let part = if self.random.once_in(6) {
            &self.ends
        } else {
            &**self.random.pick(&self.parts)
        };
        let first = self.random.below(part.len());
        let second = self.random.below(part.len() - 1);
        let second = second + usize::from(second >= first);
        let mut ends = [part[first], part[second]];
        ends.sort_unstable();
        ends
    }

    /// A pair that is open if there is one.
    fn open_pair(&mut self) -> Option<[usize; 2]> {
        let open = self.ledger.open_pairs().len();
        let place = self.random.below(open.max(1));
        let mut pairs = self.ledger.open_pairs();
        pairs.nth(place)
    }

    /// Asks for an amount about as large as may be opened, or for any.
    fn open(&mut self, sites: [usize; 2]) {
        let room = self.ledger.room(sites);
        // What the links at the two ends would let through, and others on the way.
        let path: Vec<usize> = self.ledger.path(sites).collect();
        let one = *self.random.pick(&path);
        let of_one = self.ledger.most(one) - self.ledger.load(one);
        let part = 1 + self.random.below(room as usize + 1) as u64;
        let small = self.random.between(1, 3) as u64;
        let halves = *self.random.pick(&[
            room,
            room + 1,
            room.saturating_sub(1),
            room / 2,
            room / 2 + 1,
            part,
            of_one,
            self.ledger.most(one),
            small,
            1,
            AMOUNT,
        ]);
        self.ask(b"+", sites, halves.clamp(1, AMOUNT));
    }

    /// Gives up about as much as is open, or any amount.
    fn give_up(&mut self, sites: [usize; 2]) {
        let open = self.ledger.open(sites);
        let path: Vec<usize> = self.ledger.path(sites).collect();
        let loads = path.iter().map(|&link| self.ledger.load(link));
        let least_load = loads.min().unwrap_or(0);
        let part = 1 + self.random.below(open as usize + 1) as u64;
        let halves = *self.random.pick(&[
            open,
            open,
            open + 1,
            open.saturating_sub(1),
            open / 2,
            part,
            least_load,
            1,
            AMOUNT,
        ]);
        self.ask(b"-", sites, halves.clamp(1, AMOUNT));
    }

    /// A line that asks for something, in the course of filling links or of emptying them.
    fn request(&mut self, fills: bool) {
        let open = self.open_pair().filter(|_| !self.random.once_in(3));
        let sites = open.unwrap_or_else(|| self.two_ends());
        if self.random.once_in(4) == fills {
            self.give_up(sites);
        } else {
            self.open(sites);
        }
    }

    /// A line of fields each of which is right or wrong, as it happens.
    pub(crate) fn piece(&mut self) {
        let mut fields = vec![self.letter()];
        let [first, second] = self.two_ends();
        let mut names = [self.piece_of_name(first), self.piece_of_name(second)];
        self.random.shuffle(&mut names);
        fields.extend(names);
        fields.push(self.amount());
        match self.random.below(16) {
            0 => _ = fields.pop(),
            1 => fields.truncate(self.random.between(1, 3)),
            2 => fields.push(self.amount()),
            3 => fields.push(Vec::new()),
            4 => _ = fields.remove(self.random.below(4)),
            5 => fields.insert(self.random.below(4), b"x".to_vec()),
            _ => (),
        }
        let mut line = fields.join(&b'\t');
        if self.random.once_in(16) {
            let tabs: Vec<usize> = (0..line.len()).filter(|&it| line[it] == b'\t').collect();
            if !tabs.is_empty() {
                line[*self.random.pick(&tabs)] = *self.random.pick(b" ,;\0");
            }
        }
        if self.random.once_in(32) {
            line.push(b'\r');
        }
        self.say(&line);
    }

    fn letter(&mut self) -> Vec<u8> {
        const LETTERS: [&[u8]; 12] = [
            b"",
            b"*",
            b"++",
            b"+ ",
            b" +",
            b"+-",
            b"N",
            b"L",
            b"P",
            b"0",
            b"\xe2\x88\x92",
            b",",
        ];
        let letter = match self.random.below(8) {
            0 => *self.random.pick(&LETTERS),
            1..=3 => b"-",
            _ => b"+",
        };
        letter.to_vec()
    }

    fn piece_of_name(&mut self, end: usize) -> Vec<u8> {
        const BAD: [&[u8]; 11] = [
            b"",
            b"abcdefghijklm",
            b"0123456789012",
            b"40~",
            b"a b",
            b"a-",
            b"\0",
            b"\xc3\xa9",
            b"a ",
            b"@",
            b"[`{/:",
        ];
        const UNKNOWN: [&[u8]; 5] = [b"zq9zq9", b"0q", b"Q", b"abcdefghijkl", b"7777x"];
        match self.random.below(16) {
            0 | 1 => self.random.pick(&BAD).to_vec(),
            2 => self.random.pick(&UNKNOWN).to_vec(),
            // A joint, more often than not.
            3 | 4 => {
                let site = self.random.below(self.network.names.len());
                self.name(site)
            }
            // An end, and maybe both names the same one.
            5 => self.name(self.ends[0]),
            6 => bare_number(self.random),
            _ => self.name(end),
        }
    }

    fn amount(&mut self) -> Vec<u8> {
        const AMOUNTS: [&[u8]; 32] = [
            b"0",
            b"1",
            b"2",
            b"1999999",
            b"2000000",
            b"2000001",
            b"9999999",
            b"10000000",
            b"99999999",
            b"100000000",
            b"4294967296",
            b"4294967297",
            b"18446744073709551616",
            b"18446744073709551617",
            b"01",
            b"00",
            b"007",
            b"0000000",
            b"02000000",
            b"00000000",
            b"000000001",
            b"",
            b" 1",
            b"1 ",
            b"1\r",
            b"+1",
            b"-1",
            b"1.5",
            b"1a",
            b"0x1",
            b"\xc2\xbd",
            b"12345678x",
        ];
        match self.random.below(8) {
            0..=2 => self.random.pick(&AMOUNTS).to_vec(),
            3 => {
                let digits = self.random.between(1, 40);
                let zeros = [b'0'].repeat(digits - 1);
                [
                    self.random.pick(&[b"1", b"2", b"9", b"0"]).as_slice(),
                    &zeros,
                ]
                .concat()
            }
            _ => {
                let digits = self.random.below(7) as u32;
                let halves = 1 + self.random.below(10_usize.pow(digits));
                halves.to_string().into_bytes()
            }
        }
    }
}

/// The ends of the parts into which the tree falls at its ends, each part once for each of them.
fn parts(network: &Network, ledger: &Ledger) -> Vec<Rc<[usize]>> {
    let around = network.around();
    let mut is_seen = vec![false; network.links.len()];
    let mut parts = Vec::new();
    for (link, &sites) in network.links.iter().enumerate() {
        if is_seen[link] {
            continue;
        }
        is_seen[link] = true;
        let mut reached = sites.to_vec();
        let mut next = 0;
        while next < reached.len() {
            for &(link, site) in &around[reached[next]] {
                if !ledger.is_end(reached[next]) && !is_seen[link] {
                    is_seen[link] = true;
                    reached.push(site);
                }
            }
            next += 1;
        }
        reached.retain(|&site| ledger.is_end(site));
        let ends: Rc<[usize]> = reached.into();
        parts.extend(std::iter::repeat_n(ends.clone(), ends.len()));
    }
    parts
}

/// A tree of any shape, often a small one.
pub(crate) fn tree(random: &mut Random) -> Network {
    let most = *random.pick(&[2, 4, 7, 7, 7, 7, 10, 10, 16, 16, 24, 48, 96, 256, SITES]);
    Network::any(most, random)
}

/// How many lines a log has, mostly few.
pub(crate) fn some_lines(random: &mut Random) -> usize {
    let most = *random.pick(&[3, 3, 8, 8, 16, 16, 24, 40, 40, 40, 60, 200]);
    random.between(0, most)
}

/// Damages the end of a log, or one of its bytes, now and then.
pub(crate) fn wear(log: &mut Vec<u8>, random: &mut Random) {
    match random.below(24) {
        0 | 1 => _ = log.pop(),
        2 => log.truncate(random.below(log.len() + 1)),
        3 if !log.is_empty() => {
            let place = random.below(log.len());
            log[place] = *random.pick(b"\t\n+-a0 \r");
        }
        4 if !log.is_empty() => _ = log.remove(random.below(log.len())),
        5 => log.insert(random.below(log.len() + 1), *random.pick(b"\t\n+-a0 \r")),
        6 => log.extend(*random.pick(&[b"\n".as_slice(), b"\n\n", b"\t", b"+", b"-\t", b" "])),
        _ => (),
    }
}

/// Lines that fill links and then empty them, over and over, with some faults in between.
fn traffic(random: &mut Random) -> Case {
    let network = tree(random);
    let count = some_lines(random);
    let turn = random.between(4, 60);
    let pieces = *random.pick(&[0, 0, 16, 6]);
    let mut writer = Writer::new(&network, random);
    for line in 0..count {
        if pieces > 0 && writer.random.once_in(pieces) {
            writer.piece();
        } else {
            writer.request((line / turn).is_multiple_of(2));
        }
    }
    let mut log = writer.log;
    wear(&mut log, random);
    Case::new(network, log, random)
}

/// Lines of which nearly all have a fault.
fn lines_of_pieces(random: &mut Random) -> Case {
    let network = tree(random);
    let count = some_lines(random);
    let mut writer = Writer::new(&network, random);
    for _ in 0..count {
        writer.piece();
    }
    let mut log = writer.log;
    wear(&mut log, random);
    Case::new(network, log, random)
}

/// As many pairs open together as may be, and what comes then.
fn crowd(random: &mut Random) -> Case {
    let shape = *random.pick(&[Shape::Star, Shape::Star, Shape::Broom, Shape::Attached]);
    let ends = random.between(33, 70);
    let sites = match shape {
        _ if random.once_in(8) => random.between(SITES - 40, SITES),
        Shape::Star => ends + 1,
        _ => 2 * ends + 8,
    };
    let sizes = *random.pick(&[Sizes::Alike, Sizes::Wide, Sizes::Large]);
    let names = *random.pick(&[Names::Counted, Names::Any]);
    let mut network = Network::random(shape, sites, sizes, names, random);
    for size in &mut network.sizes {
        // Large enough for all pairs at once, but for some links.
        *size = (*size).max(600);
    }
    for _ in 0..random.below(4) {
        let link = random.below(network.sizes.len());
        network.sizes[link] = random.below(3) as u32;
    }
    if random.once_in(3) {
        for _ in 0..random.between(1, 4) {
            let site = random.below(sites);
            network.marks[site] = true;
        }
    }
    let mut writer = Writer::new(&network, random);
    let mut pairs = all_pairs(&writer.ends);
    writer.random.shuffle(&mut pairs);
    pairs.truncate(4 * OPEN_PAIRS);
    pairs.retain(|&pair| writer.ledger.is_free(pair) || writer.random.once_in(16));
    let most = OPEN_PAIRS - *writer.random.pick(&[0, 0, 0, 1, 2]);
    let mut next = 0;
    while next < pairs.len() && writer.ledger.open_pairs().len() < most {
        let halves = writer.random.between(1, 2) as u64;
        writer.ask(b"+", pairs[next], halves);
        next += 1;
    }
    let left = pairs.split_off(next.min(pairs.len()));
    for _ in 0..writer.random.between(1, 40) {
        crowded_line(&mut writer, &pairs, &left);
    }
    let mut log = writer.log;
    wear(&mut log, random);
    Case::new(network, log, random)
}

/// A line where hardly a place is left: mostly a pair more, or one of the open ones.
fn crowded_line(writer: &mut Writer, tried: &[[usize; 2]], left: &[[usize; 2]]) {
    let open = writer.open_pair();
    match (writer.random.below(10), open) {
        (0..=3, _) if !left.is_empty() => {
            let sites = *writer.random.pick(left);
            let halves = *writer.random.pick(&[1, 2, 3, AMOUNT]);
            writer.ask(b"+", sites, halves);
        }
        (4 | 5, Some(sites)) => {
            let all = writer.ledger.open(sites);
            writer.ask(b"-", sites, all);
        }
        (6, Some(sites)) => _ = writer.ask(b"-", sites, 1),
        (7, Some(sites)) => _ = writer.ask(b"+", sites, 1),
        (8, _) => {
            let sites = *writer.random.pick(tried);
            writer.ask(b"+", sites, 1);
        }
        _ => writer.request(true),
    }
}

pub(crate) fn all_pairs(ends: &[usize]) -> Vec<[usize; 2]> {
    let pairs = |place: usize| ends[place + 1..].iter().map(move |&end| [ends[place], end]);
    (0..ends.len()).flat_map(pairs).collect()
}

/// A name of one or two bytes for each site, so that many lines fit into a log. Each starts with a letter.
pub(crate) fn short_names(network: &mut Network) {
    const LETTERS: &[u8; 36] = b"ABCDEFGHIJKLMNOPQRSTUVWXYZ0123456789";
    for (number, name) in network.names.iter_mut().enumerate() {
        *name = match number {
            0..26 => vec![LETTERS[number]],
            _ => vec![LETTERS[(number - 26) / 36], LETTERS[(number - 26) % 36]],
        };
    }
}

/// A log of 4,096 lines over a tree of so many sites, with short names.
pub fn long_log(shape: Shape, sites: usize, random: &mut Random) -> Case {
    log_of(shape, sites, Sizes::Wide, LOG_LINES, random)
}

/// The same of any number of lines.
pub fn log_of(shape: Shape, sites: usize, sizes: Sizes, count: usize, random: &mut Random) -> Case {
    let mut network = Network::random(shape, sites, sizes, Names::Counted, random);
    short_names(&mut network);
    let mut writer = Writer::new(&network, random);
    for line in 0..count {
        writer.request((line / 1_024).is_multiple_of(2));
    }
    let log = writer.log;
    Case::new(network, log, random)
}

/// A log of so many lines over a tree with short names and large sizes that opens 512 pairs and then
/// hardly leaves a place.
pub fn crowded_log(shape: Shape, sites: usize, count: usize, random: &mut Random) -> Case {
    let mut network = Network::random(shape, sites, Sizes::Large, Names::Counted, random);
    short_names(&mut network);
    let mut writer = Writer::new(&network, random);
    let mut pairs = all_pairs(&writer.ends);
    writer.random.shuffle(&mut pairs);
    let left = pairs.split_off(OPEN_PAIRS.min(pairs.len()));
    for &sites in &pairs {
        writer.ask(b"+", sites, 2);
    }
    for _ in pairs.len()..count {
        match writer.random.below(16) {
            0 => crowded_line(&mut writer, &pairs, &left),
            line => {
                let sites = writer.open_pair().unwrap_or(pairs[0]);
                writer.ask(if line % 2 == 0 { b"-" } else { b"+" }, sites, 1);
            }
        }
    }
    let log = writer.log;
    Case::new(network, log, random)
}

/// A log of 4,096 lines, or one that differs from it a little.
fn full_log(random: &mut Random) -> Case {
    let shape = *random.pick(&SHAPES);
    let sizes = *random.pick(&SIZES);
    let sites = random.between(2, SITES);
    let mut case = log_of(shape, sites, sizes, LOG_LINES, random);
    match random.below(5) {
        0 => case.log.push(b'\n'),
        1 => case.log.push(b'+'),
        2 => _ = case.log.pop(),
        3 => wear(&mut case.log, random),
        _ => (),
    }
    case.log.truncate(LOG_BYTES + 2);
    case
}

/// A log of about 65,536 bytes or about 4,096 lines, most of them no requests.
fn near_the_limits(random: &mut Random) -> Case {
    let network = Network::any(7, random);
    let mut writer = Writer::new(&network, random);
    for _ in 0..20 {
        writer.request(true);
    }
    let mut log = writer.log;
    let over = *random.pick(&[0, 0, 1, 1, 2, 500]);
    if random.once_in(2) {
        // Few long lines: a last one, or an amount with very many digits.
        let filler = *random.pick(b"9a\t+0");
        let start: &[u8] = random.pick::<&[u8]>(&[b"", b"+\t", b"+\ta\tb\t9"]);
        log.extend_from_slice(start);
        log.resize(LOG_BYTES - 1 + over, filler);
        log.push(*random.pick(b"\n\n9"));
    } else {
        let ended = lines(&log).count();
        log.extend([b'\n'].repeat(LOG_LINES + over - ended));
        match random.below(3) {
            0 => log.push(b'+'),
            1 => _ = log.pop(),
            _ => (),
        }
    }
    Case::new(network, log, random)
}

/// The sheets and logs of a small exhaustive comparison: all logs of at most `most` lines out of a short
/// list, each with its last line ended and not, over a few trees.
///
/// # Errors
///
/// The first that `see` returns.
pub fn every_small_log<Failure>(
    most: usize,
    see: impl FnMut(&Case) -> Result<(), Failure>,
) -> Result<usize, Failure> {
    every_small_text(&LINES, most, see)
}

/// The same of any text with lines out of a list, which stands in the place of the log.
pub(crate) fn every_small_text<Failure>(
    lines: &[&str],
    most: usize,
    mut see: impl FnMut(&Case) -> Result<(), Failure>,
) -> Result<usize, Failure> {
    let mut count = 0;
    for network in small_trees() {
        let sheet = network.sheet(Layout::SitesFirst, &mut Random::new(0));
        let mut case = Case {
            network,
            sheet,
            log: Vec::new(),
        };
        count += every_text(&mut case, lines, most, &mut see)?;
    }
    Ok(count)
}

/// The lines that small logs have.
const LINES: [&str; 21] = [
    "+ a b 1",
    "+ b a 2",
    "+ a b 3",
    "+ A C 1",
    "+ c a 2",
    "+ c B 1",
    "- a b 1",
    "- b A 2",
    "- a c 1",
    "- c a 3",
    "- b c 1",
    "+ a h 1",
    "- a A 1",
    "+ h zz 0",
    "+ a b 2000001",
    "- a b 01",
    "+ 40 b 01",
    "+ a-b h 01",
    "+ a b",
    "* a b 1",
    "",
];

fn every_text<Failure>(
    case: &mut Case,
    lines: &[&str],
    most: usize,
    see: &mut impl FnMut(&Case) -> Result<(), Failure>,
) -> Result<usize, Failure> {
    see(case)?;
    let mut count = 1;
    if most == 0 {
        return Ok(count);
    }
    let length = case.log.len();
    for line in lines {
        case.log.extend(line.replace(' ', "\t").bytes());
        if !line.is_empty() {
            see(case)?;
            count += 1;
        }
        case.log.push(b'\n');
        count += every_text(case, lines, most - 1, see)?;
        case.log.truncate(length);
    }
    Ok(count)
}

/// Two ends alone; stars; and paths of links of several sizes; and with marked sites inside a path and a
/// star, named with a `*` behind. Those with an odd number of sites are of edition 2.
fn small_trees() -> Vec<Network> {
    let tree = |names: &[&str], links: &[([usize; 2], u32)]| Network {
        edition: Edition::ALL[names.len() % 2],
        names: names
            .iter()
            .map(|name| name.trim_end_matches('*').as_bytes().to_vec())
            .collect(),
        marks: names.iter().map(|name| name.ends_with('*')).collect(),
        links: links.iter().map(|&(sites, _)| sites).collect(),
        sizes: links.iter().map(|&(_, size)| size).collect(),
        reserves: vec![None; links.len()],
        spelling: Spelling::AsGiven,
    };
    vec![
        tree(&["a", "b"], &[([0, 1], 1)]),
        tree(
            &["h", "a", "b", "c"],
            &[([0, 1], 1), ([0, 2], 1), ([3, 0], 1)],
        ),
        tree(
            &["c", "b", "h", "A"],
            &[([2, 3], 2), ([1, 2], 1), ([0, 2], 0)],
        ),
        tree(&["a", "h", "b"], &[([0, 1], 1), ([2, 1], 2)]),
        tree(
            &["a", "h", "k", "b", "c"],
            &[([0, 1], 2), ([1, 2], 1), ([2, 3], 2), ([2, 4], 1)],
        ),
        tree(
            &["h*", "a", "b", "c"],
            &[([0, 1], 1), ([0, 2], 2), ([3, 0], 1)],
        ),
        tree(
            &["c", "a*", "h", "b", "d"],
            &[([0, 1], 1), ([1, 2], 2), ([2, 3], 1), ([4, 2], 1)],
        ),
    ]
}
