//! What is due of a booking log, by the words of its card.
//!
//! Slow and plain, and with nothing of a planner: a link lies on the path between two sites if
//! they are no longer joined without it.

use crate::bare::{fault_of_names, is_bare};
use crate::{Network, SIZE};
use std::collections::{BTreeMap, HashMap};

/// The longest log that is replayed, in bytes.
pub const LOG_BYTES: usize = 65_536;
/// The most lines a log may have.
pub const LOG_LINES: usize = 4_096;
/// The most pairs that may be open together.
pub const OPEN_PAIRS: usize = 512;
/// The largest amount of a line, in halves.
pub const AMOUNT: u64 = 2 * SIZE as u64;

/// The lines of a log, their bytes 10 left off, each with whether it has one.
pub fn lines(log: &[u8]) -> impl Iterator<Item = (&[u8], bool)> {
    log.split_inclusive(|&byte| byte == b'\n')
        .map(|line| match line.strip_suffix(b"\n") {
            Some(line) => (line, true),
            None => (line, false),
        })
}

/// Whether a log is refused as a whole, whatever its lines are.
#[must_use]
pub fn is_too_long(log: &[u8]) -> bool {
    log.len() > LOG_BYTES || lines(log).count() > LOG_LINES
}

/// What a line answered with 0 moves.
#[derive(Clone, Copy, Debug, PartialEq, Eq)]
pub struct Move {
    /// Whether it opens the amount, or gives it up.
    pub opens: bool,
    /// The two sites, numbered from 0, the lower one first.
    pub sites: [usize; 2],
    /// The amount.
    pub halves: u64,
}

/// What is open over a network.
#[derive(Clone)]
pub struct Ledger {
    /// The site of each name in capitals.
    sites: HashMap<Vec<u8>, usize>,
    /// For each link and each site whether the site is joined with the first site of the link without it.
    sides: Vec<Vec<bool>>,
    /// The two sites of each link.
    links: Vec<[usize; 2]>,
    is_end: Vec<bool>,
    /// The usable size of each link.
    capacity: Vec<u32>,
    /// What the lines answered with 0 moved.
    moves: Vec<Move>,
    open: BTreeMap<[usize; 2], u64>,
    loads: Vec<u64>,
    seen: Seen,
}

/// What occurred in a log.
#[derive(Clone, Copy, Debug, Default, PartialEq, Eq)]
pub struct Seen {
    /// How many pairs were open at most.
    pub most_open: usize,
    /// How many lines were answered with 6 for another end between their two.
    pub across: usize,
}

impl Ledger {
    /// Nothing is open.
    #[must_use]
    pub fn new(network: &Network) -> Self {
        let names = network.names.iter().map(|name| name.to_ascii_uppercase());
        let sites = 0..network.names.len();
        Ledger {
            sites: names.zip(sites.clone()).collect(),
            sides: sides(network),
            links: network.links.clone(),
            is_end: sites.map(|site| network.is_end(site)).collect(),
            capacity: network.usable_sizes(),
            moves: Vec::new(),
            open: BTreeMap::new(),
            loads: vec![0; network.links.len()],
            seen: Seen::default(),
        }
    }

    /// The answer due to the next line, which moves what it asks if it gets 0.
    pub fn answer(&mut self, line: &[u8], is_ended: bool) -> u64 {
        match self.cause(line, is_ended) {
            Err(number) => {
                self.seen.across += usize::from(number == 6 && self.names_two_ends(line));
                number
            }
            Ok(made) => {
                self.make(made);
                self.seen.most_open = self.seen.most_open.max(self.open.len());
                0
            }
        }
    }

    /// The first cause against a line, in the order of the card, or what it moves.
    fn cause(&self, line: &[u8], is_ended: bool) -> Result<Move, u64> {
        let (letter, sites, halves) = self.request(line, is_ended, &[b"+", b"-"])?;
        let opens = letter == b"+";
        if !opens && self.open(sites) < halves {
            return Err(14);
        }
        if opens && self.room(sites) < halves {
            return Err(15);
        }
        if opens && self.open(sites) == 0 && self.open.len() == OPEN_PAIRS {
            return Err(16);
        }
        Ok(Move {
            opens,
            sites,
            halves,
        })
    }

    /// What a line says, of a log or of another text with the same lines but for the letters: its letter, its
    /// two sites, the lower one first, and its amount; or the first fault that it has by itself, in the order of
    /// the cards.
    pub(crate) fn request<'line>(
        &self,
        line: &'line [u8],
        is_ended: bool,
        letters: &[&[u8]],
    ) -> Result<(&'line [u8], [usize; 2], u64), u64> {
        let fields: Vec<&[u8]> = line.split(|&byte| byte == b'\t').collect();
        if !is_ended || !letters.contains(&fields[0]) {
            return Err(2);
        }
        let [letter, first, second, amount] = fields[..] else {
            return Err(10);
        };
        if let Some(number) = fault_of_names(&[first, second]) {
            return Err(number.into());
        }
        if !is_number(amount) {
            return Err(12);
        }
        // A number that is too long to be read is too large.
        let text = String::from_utf8_lossy(amount);
        let halves = text.parse().unwrap_or(u64::MAX);
        if !(1..=AMOUNT).contains(&halves) {
            return Err(3);
        }
        let Some(mut sites) = self.two_ends(first, second) else {
            return Err(6);
        };
        if !self.is_free(sites) {
            return Err(6);
        }
        sites.sort_unstable();
        Ok((letter, sites, halves))
    }

    /// The two different ends that are named.
    fn two_ends(&self, first: &[u8], second: &[u8]) -> Option<[usize; 2]> {
        let site = |name: &[u8]| self.sites.get(&name.to_ascii_uppercase()).copied();
        let sites = [site(first)?, site(second)?];
        let are_ends = sites.iter().all(|&site| self.is_end[site]);
        (are_ends && sites[0] != sites[1]).then_some(sites)
    }

    fn names_two_ends(&self, line: &[u8]) -> bool {
        let fields: Vec<&[u8]> = line.split(|&byte| byte == b'\t').collect();
        matches!(fields[..], [_, first, second, _] if self.two_ends(first, second).is_some())
    }

    fn make(&mut self, made: Move) {
        let path: Vec<usize> = self.path(made.sites).collect();
        let moved = |amount: u64| {
            if made.opens {
                amount + made.halves
            } else {
                amount - made.halves
            }
        };
        for link in path {
            self.loads[link] = moved(self.loads[link]);
        }
        match moved(self.open(made.sites)) {
            0 => self.open.remove(&made.sites),
            left => self.open.insert(made.sites, left),
        };
        self.moves.push(made);
    }

    /// What a pair, the lower site first, has open.
    #[must_use]
    pub fn open(&self, sites: [usize; 2]) -> u64 {
        self.open.get(&sites).copied().unwrap_or(0)
    }

    /// The open pairs, the lower site first, in ascending order.
    #[must_use]
    pub fn open_pairs(&self) -> impl ExactSizeIterator<Item = [usize; 2]> {
        self.open.keys().copied()
    }

    /// The links without which two sites are not joined.
    pub fn path(&self, [one, other]: [usize; 2]) -> impl Iterator<Item = usize> {
        (0..self.loads.len()).filter(move |&link| self.sides[link][one] != self.sides[link][other])
    }

    /// What a link carries, in halves.
    #[must_use]
    pub fn load(&self, link: usize) -> u64 {
        self.loads[link]
    }

    /// What a link may carry: twice its capacity.
    #[must_use]
    pub fn most(&self, link: usize) -> u64 {
        2 * u64::from(self.capacity[link])
    }

    /// What may still be opened between two different sites, as far as the links of their path let
    /// it through.
    #[must_use]
    pub fn room(&self, sites: [usize; 2]) -> u64 {
        let rooms = self
            .path(sites)
            .map(|link| self.most(link) - self.load(link));
        rooms.min().unwrap_or(0)
    }

    /// Whether a site is an end.
    #[must_use]
    pub fn is_end(&self, site: usize) -> bool {
        self.is_end[site]
    }

    /// Whether no end but these two lies on the path between two sites.
    #[must_use]
    pub fn is_free(&self, sites: [usize; 2]) -> bool {
        let mut on_path = self.path(sites).flat_map(|link| self.links[link]);
        on_path.all(|site| sites.contains(&site) || !self.is_end[site])
    }

    /// Works out anew, from all lines answered with 0, what each pair has open and each link carries,
    /// and checks it against the card.
    ///
    /// # Errors
    ///
    /// What does not hold.
    pub fn check_anew(&self) -> Result<(), String> {
        let mut open: BTreeMap<[usize; 2], i128> = BTreeMap::new();
        let mut loads = vec![0_i128; self.loads.len()];
        for made in &self.moves {
            let halves = i128::from(made.halves);
            let halves = if made.opens { halves } else { -halves };
            *open.entry(made.sites).or_default() += halves;
            for link in self.path(made.sites) {
                loads[link] += halves;
            }
        }
        if open.values().any(|&halves| halves < 0) {
            return Err("more is given up than was open".to_string());
        }
        open.retain(|_, halves| *halves > 0);
        let same = |pair: (&[usize; 2], &i128)| {
            self.open.get(pair.0).map(|&it| it.into()) == Some(*pair.1)
        };
        if open.len() > OPEN_PAIRS || open.len() != self.open.len() || !open.iter().all(same) {
            return Err("the open pairs are others, or too many".to_string());
        }
        for (link, load) in loads.iter().enumerate() {
            if *load != self.load(link).into() || *load < 0 || *load > self.most(link).into() {
                return Err(format!("link {link}, counted from 0, carries {load}"));
            }
        }
        Ok(())
    }
}

/// Without each link the sites that are still joined with its first site.
fn sides(network: &Network) -> Vec<Vec<bool>> {
    let around = network.around();
    let side = |(without, link): (usize, &[usize; 2])| {
        let mut is_joined = vec![false; network.names.len()];
        let mut reached = vec![link[0]];
        while let Some(site) = reached.pop() {
            is_joined[site] = true;
            let next = around[site].iter();
            let next = next.filter(|&&(link, site)| link != without && !is_joined[site]);
            reached.extend(next.map(|&(_, site)| site));
        }
        is_joined
    };
    network.links.iter().enumerate().map(side).collect()
}

fn is_number(field: &[u8]) -> bool {
    is_bare(field) && (field == b"0" || field[0] != b'0')
}

/// How often loads are worked out anew: after every line of a log with so few lines, after some lines of
/// a longer one.
const FEW_LINES: usize = 48;

/// Checks the answers to the lines of a log line by line. Returns what occurred.
///
/// # Errors
///
/// What does not hold, with the line.
pub fn check(network: &Network, log: &[u8], answers: &[u64]) -> Result<Seen, String> {
    let mut ledger = Ledger::new(network);
    let count = lines(log).count();
    if count != answers.len() {
        return Err(format!("{} answers to {count} lines", answers.len()));
    }
    for ((place, (line, is_ended)), answer) in lines(log).enumerate().zip(answers) {
        let told = |what: String| format!("line {}: {what}", place + 1);
        let due = ledger.answer(line, is_ended);
        if *answer != due {
            return Err(told(format!("the answer is {answer} where {due} is due")));
        }
        if count <= FEW_LINES || place % 256 == 255 || place + 1 == count {
            ledger.check_anew().map_err(told)?;
        }
    }
    Ok(ledger.seen)
}

/// The answers due to the lines of a log.
#[must_use]
pub fn due(network: &Network, log: &[u8]) -> Vec<u64> {
    let mut ledger = Ledger::new(network);
    lines(log)
        .map(|(line, is_ended)| ledger.answer(line, is_ended))
        .collect()
}
