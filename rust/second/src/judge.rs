//! Judging a plan drawn by hand.
//!
//! Its lines are read one by one, and the first that is at fault refuses it. What each link carries is
//! worked out for all lines at once: an amount counts at its two ends, and twice less where their paths to
//! the root meet, so that a link carries what is counted below it.

use crate::edition::Edition;
use crate::forest::Forest;
use crate::names::NameTable;
use crate::network::Network;
use crate::pair_lines::{
    AMOUNT, AMOUNT_RANGE, Ends, NOT_FREE_ENDS, OTHER_TEXT, PairLine, SHEET, TOO_LONG, line_count,
    read_line,
};
use crate::planted::{Error, planted};
use crate::tree::RootedTree;
use crate::trim::{Balanced, balance};
use crate::{PLACES, Refusal, Site, pairs, report, whole};

/// The longest plan that is judged, in bytes.
pub const PLAN_BYTES: usize = 65_536;
/// The most lines a plan may have.
pub const PLAN_LINES: usize = 1_024;

/// What becomes of a plan.
#[derive(Clone, Copy, Debug, PartialEq, Eq)]
pub enum Judged {
    /// It fits.
    Accepted {
        /// The sum of its amounts, in halves.
        total: u64,
        /// Whether no fitting plan has a greater total, however finely circuits are cut.
        is_largest: bool,
    },
    /// It does not, or a text is at fault.
    Refused {
        /// The text at fault: 1 is the sheet, 2 the plan.
        text: u8,
        /// The number of the cause.
        number: u8,
        /// The line at fault, from 1, or 0 when no line is.
        line: u32,
    },
}

impl Judged {
    /// The line that a program prints: `judged`, tab, the total in halves, tab, `yes` or `no`; or `refused`, tab,
    /// text, tab, number, tab, line.
    #[must_use]
    pub fn line(self) -> String {
        match self {
            Judged::Accepted { total, is_largest } => {
                let answer = if is_largest { "yes" } else { "no" };
                format!("judged\t{total}\t{answer}\n")
            }
            Judged::Refused { text, number, line } => {
                format!("refused\t{text}\t{number}\t{line}\n")
            }
        }
    }
}

const GIVEN_TWICE: u8 = 20;
const OVERFILLED: u8 = 21;

/// Judges `plan` over the network of `sheet`.
#[must_use]
pub fn judge(sheet: &[u8], plan: &[u8]) -> Judged {
    let mut network = Network::new(sheet);
    let mut table = NameTable::new();
    if let Err(Refusal { number, line }) = network.read_with(&mut table, &Edition::ALL) {
        let text = SHEET;
        return Judged::Refused { text, number, line };
    }
    let tree = RootedTree::new(&network);
    match Drawn::new(Ends::new(&network, &table, &tree)).read(plan) {
        Ok(total) => {
            let trimmed = balance(&tree);
            let is_largest = total == greatest_total(&tree, &trimmed)
                && (!planted(Error::ReportAlone) || is_in_report(&network, &tree, &trimmed, plan));
            Judged::Accepted {
                total,
                is_largest: is_largest || planted(Error::FitIsLargest),
            }
        }
        Err(Refusal { number, line }) => {
            let text = OTHER_TEXT;
            Judged::Refused { text, number, line }
        }
    }
}

/// The greatest total of a plan in halves: what the trimmed sizes let out of all ends.
fn greatest_total(tree: &RootedTree, trimmed: &Balanced) -> u64 {
    if planted(Error::LargestInCircuits) {
        let loads = whole::loads(tree, &Forest::new(tree));
        return tree.terminals().map(|end| u64::from(loads.sum(end))).sum();
    }
    if planted(Error::LargestUntrimmed) {
        let links = tree.leaves_first().iter();
        let at_ends = |site: Site| [site, tree.parent(site)].map(|it| tree.is_terminal(it));
        return links
            .map(|&site| {
                let ends = at_ends(site).into_iter().map(u64::from).sum::<u64>();
                ends * u64::from(tree.capacity(site))
            })
            .sum();
    }
    tree.terminals()
        .map(|end| u64::from(trimmed.sum(end)))
        .sum()
}

/// Whether the lines of a plan are those of the report, in any order, for an error that can be planted.
#[cold]
fn is_in_report(network: &Network, tree: &RootedTree, trimmed: &Balanced, plan: &[u8]) -> bool {
    let mut text = Vec::new();
    report::push_pairs(&mut text, network, &pairs::pair(network, tree, trimmed));
    let [drawn, due] = [plan, &text].map(|text| {
        let mut lines: Vec<&[u8]> = text.split(|&byte| byte == b'\n').collect();
        lines.sort_unstable();
        lines
    });
    drawn == due
}

/// A plan over the ends of a network, as far as it is read.
struct Drawn<'network> {
    ends: Ends<'network>,
    /// The first site, on the way from the root, of the chain that each site is in. A site that is not the
    /// last of its chain is followed there by its child with most sites below it.
    chain: [Site; PLACES],
    /// What is counted at each site.
    counted: [i64; PLACES],
    given: GivenPairs,
}

impl<'network> Drawn<'network> {
    fn new(ends: Ends<'network>) -> Self {
        Drawn {
            chain: chains(&ends.parent),
            ends,
            counted: [0; PLACES],
            given: GivenPairs::new(),
        }
    }

    /// Reads a whole plan; returns its total, or why it is refused.
    fn read(&mut self, plan: &[u8]) -> Result<u64, Refusal> {
        let plan = without_unended(plan);
        if is_too_long(plan) {
            let number = TOO_LONG;
            return Err(Refusal { number, line: 0 });
        }
        if planted(Error::TwiceBeforeEnds) {
            self.tell_twice(plan)?;
        }
        let mut total = 0;
        let mut line = 0;
        let mut start = 0;
        while start < plan.len() {
            line += 1;
            let (read, next) = read_line(plan, start, |letter| letter == b'P');
            let added = read.and_then(|read| self.add(&read));
            total += added.map_err(|number| Refusal { number, line })?;
            start = next;
            if planted(Error::OverfilledAtLine) || planted(Error::OverfilledFirst) {
                self.tell_overfilled(line * u32::from(planted(Error::OverfilledAtLine)))?;
            }
        }
        self.tell_overfilled(0)?;
        Ok(total)
    }

    /// Adds what a line gives its pair, and returns it, or the number of the cause against the line.
    #[inline]
    fn add(&mut self, line: &PairLine) -> Result<u64, u8> {
        let is_amount = (1..=AMOUNT).contains(&line.halves);
        let is_late = planted(Error::PlanEndsBeforeAmount) || planted(Error::TwiceBeforeAmount);
        if !is_amount && !is_late {
            return Err(AMOUNT_RANGE);
        }
        let Some(sites) = self.ends.two_ends(line.names, Error::PlanByBytes) else {
            let is_told = is_amount || planted(Error::PlanEndsBeforeAmount);
            return Err(if is_told { NOT_FREE_ENDS } else { AMOUNT_RANGE });
        };
        if !is_amount && planted(Error::PlanEndsBeforeAmount) {
            return Err(AMOUNT_RANGE);
        }
        if !self.given.put(sites) {
            return Err(GIVEN_TWICE);
        }
        if !is_amount {
            return Err(AMOUNT_RANGE);
        }
        let halves = i64::from(line.halves);
        for site in sites {
            self.counted[usize::from(site)] += halves;
        }
        self.counted[usize::from(self.meeting(sites))] -= 2 * halves;
        Ok(line.halves.into())
    }

    /// Where the paths of two sites to the root meet.
    #[inline]
    fn meeting(&self, [mut one, mut other]: [Site; 2]) -> Site {
        loop {
            let [chain, other_chain] = [one, other].map(|site| self.chain[usize::from(site)]);
            if chain == other_chain {
                return one.min(other);
            }
            // The chain that starts at the higher number does not hold the site looked for.
            if chain > other_chain {
                one = self.ends.parent[usize::from(chain)];
            } else {
                other = self.ends.parent[usize::from(other_chain)];
            }
        }
    }

    /// Tells at a line whether some link carries more than it may.
    fn tell_overfilled(&self, line: u32) -> Result<(), Refusal> {
        let halves = 2 - i64::from(planted(Error::PlanAgainstCapacity));
        let mut load = self.counted;
        for site in (1..PLACES).rev() {
            if load[site] > halves * i64::from(self.ends.capacity[site]) {
                let number = OVERFILLED;
                return Err(Refusal { number, line });
            }
            load[usize::from(self.ends.parent[site])] += load[site];
        }
        Ok(())
    }

    /// Tells a pair that is given twice, if no line above has a fault but names that are not two ends free to be
    /// joined, for an error that can be planted.
    #[cold]
    fn tell_twice(&self, plan: &[u8]) -> Result<(), Refusal> {
        let mut given = GivenPairs::new();
        let mut line = 0;
        let mut start = 0;
        while start < plan.len() {
            line += 1;
            let (read, next) = read_line(plan, start, |letter| letter == b'P');
            let Some(read) = read.ok().filter(|it| (1..=AMOUNT).contains(&it.halves)) else {
                return Ok(());
            };
            let sites = self.ends.two_ends(read.names, Error::PlanByBytes);
            if sites.is_some_and(|sites| !given.put(sites)) {
                let number = GIVEN_TWICE;
                return Err(Refusal { number, line });
            }
            start = next;
        }
        Ok(())
    }
}

/// The plan, or for an error that can be planted the same without a last line that byte 10 does not end.
#[inline]
fn without_unended(plan: &[u8]) -> &[u8] {
    if planted(Error::PlanUnendedLeftOut) {
        let ended = plan.iter().rposition(|&byte| byte == b'\n');
        return &plan[..ended.map_or(0, |last| last + 1)];
    }
    plan
}

/// Whether a plan is refused whatever its lines are.
fn is_too_long(plan: &[u8]) -> bool {
    let bytes = PLAN_BYTES + usize::from(planted(Error::PlanByteMore));
    let lines = PLAN_LINES + usize::from(planted(Error::PlanLineMore));
    plan.len() > bytes
        || line_count(plan) > lines
        || (planted(Error::EmptyPlanRefused) && plan.is_empty())
}

/// The first site of the chain of each site. On the way to the root a path changes its chain only where at
/// least as many sites are added to those below it as were below it before.
fn chains(parent: &[Site; PLACES]) -> [Site; PLACES] {
    let mut below: [Site; PLACES] = [1; PLACES];
    let mut followed_by: [Site; PLACES] = [0; PLACES];
    let mut most: [Site; PLACES] = [0; PLACES];
    for site in (1..PLACES).rev() {
        let above = usize::from(parent[site]);
        below[above] += below[site];
        if below[site] > most[above] {
            most[above] = below[site];
            followed_by[above] = site as Site;
        }
    }
    let mut chain = [0; PLACES];
    for site in 1..PLACES {
        let above = usize::from(parent[site]);
        chain[site] = if usize::from(followed_by[above]) == site {
            chain[above]
        } else {
            site as Site
        };
    }
    chain
}

const PAIRS: usize = PLACES * PLACES;

/// The pairs given so far, a bit for each two sites.
struct GivenPairs {
    words: [u64; PAIRS.div_ceil(64)],
}

impl GivenPairs {
    fn new() -> Self {
        GivenPairs {
            words: [0; PAIRS.div_ceil(64)],
        }
    }

    /// Puts a pair in; says whether it was not there, in either order.
    #[inline]
    fn put(&mut self, [one, other]: [Site; 2]) -> bool {
        let [row, column] = if planted(Error::OneOrderTwice) {
            [one, other]
        } else {
            [one.max(other), one.min(other)]
        };
        let place = usize::from(row) * PLACES + usize::from(column);
        let word = &mut self.words[place / 64];
        let bit = 1 << (place % 64);
        let is_new = *word & bit == 0;
        *word |= bit;
        is_new
    }
}

#[cfg(test)]
mod tests {
    use super::*;

    /// Where the paths of two sites meet, found by going up from the higher one.
    fn meeting(parent: &[Site; PLACES], [mut one, mut other]: [Site; 2]) -> Site {
        while one != other {
            if one > other {
                one = parent[usize::from(one)];
            } else {
                other = parent[usize::from(other)];
            }
        }
        one
    }

    /// All pairs of sites of paths, stars and trees in between.
    #[test]
    fn paths_meet() {
        let network = Network::new(b"");
        let table = NameTable::new();
        let mut state = 1_u64;
        let mut draw = |limit: usize| {
            state = state
                .wrapping_mul(6_364_136_223_846_793_005)
                .wrapping_add(1);
            (state >> 33) as usize % limit
        };
        for reach in [1, 2, 3, 8, 40, PLACES] {
            let mut ends = Ends::none(&network, &table);
            for site in 1..PLACES {
                ends.parent[site] = (site - 1 - draw(site.min(reach))) as Site;
            }
            let parent = ends.parent;
            let drawn = Drawn::new(ends);
            for one in 0..PLACES as Site {
                for other in 0..PLACES as Site {
                    assert_eq!(drawn.meeting([one, other]), meeting(&parent, [one, other]));
                }
            }
        }
    }
}
