//! A second tree circuit planner.
//!
//! It reads a network sheet and writes the report headed `plan`, or that headed `whole`, or lists the
//! sites in the order of work, or replays a booking log over it, or judges a plan drawn by hand, or trims it
//! with the sheet of a neighbouring region, or tells within what totals and trimmed sizes lie for sizes
//! between two, or tells why the sheet is refused. It was written from the scope document and
//! the cards alone and shares nothing with the proved planner, so that comparing the two can find a
//! mistake in either.
//!
//! Every step takes time linear in the sheet, or as good as linear: finding out whether two sites
//! are joined already, names that collide in their hash table, and the sites that may be taken next,
//! kept in order, may add a little. A line of a log takes time in the length of the path between its sites, one
//! of a plan drawn by hand in the logarithm of the number of sites.
//!
//! | module | step |
//! |---|---|
//! | `edition` | tells the edition of a sheet, which has the limits |
//! | `network` | reads the sheet: sites, links, refusals 1 to 8, 10 to 13, 17 and 19 |
//! | `form` | tells what is off in a line of the wrong form: refusals 2, 10, 11, 17, 12 |
//! | `names` | finds a site by its name, in either case |
//! | `neighbours` | lists the neighbours of every site |
//! | `tree` | roots the tree by taking off its leaves, and its parts |
//! | `trim` | trims the capacities in two passes |
//! | `cuts` | works out the end sets (terminal cuts) |
//! | `forest` | takes out links of capacity 0, for plans in whole circuits |
//! | `whole` | the loads of a largest plan in whole circuits |
//! | `pieces` | end sets and odd pieces of such a plan |
//! | `pairs` | pairs the ends by splitting lists |
//! | `report` | writes the report |
//! | `order` | takes the sites in the order of work |
//! | `pair_lines` | reads lines that name two ends and an amount |
//! | `replay` | replays a booking log over the network |
//! | `judge` | judges a plan drawn by hand |
//! | `book` | makes the exercise book |
//! | `regions` | trims two regions that share one link |
//! | `ranges` | the report on sizes between two |
//! | `program` | what the programs do |
//!
//! Sites and links are numbered from 0 inside, in the order of their lines. The capacity of a link is
//! its usable size, that is its size less its reserve; nothing behind `network` knows of the two. An end
//! is a site with one link or a marked one; nothing behind `network` asks which. At an end with several
//! links the tree falls apart.

#![forbid(unsafe_code)]

mod book;
mod cuts;
mod edition;
mod forest;
mod form;
mod judge;
mod names;
mod neighbours;
mod network;
mod order;
mod pair_lines;
mod pairs;
mod pieces;
pub mod planted;
pub mod program;
mod ranges;
mod regions;
mod replay;
mod report;
mod tree;
mod trim;
mod whole;

pub use book::book;
pub use edition::Edition;
use forest::Forest;
pub use judge::{Judged, PLAN_BYTES, PLAN_LINES, judge};
use network::Network;
pub use pair_lines::AMOUNT;
use planted::{Error, planted};
pub use ranges::ranges;
pub use regions::{Answer, Exchanged, first_step, region_text, regions, regions_text, second_step};
pub use replay::{LOG_BYTES, LOG_LINES, OPEN_PAIRS, Replayed, replay};
use report::Shown;
use tree::RootedTree;
use trim::Balanced;

/// The largest sheet that is read, in bytes: one of edition 2.
pub const SHEET_BYTES: usize = Edition::TWO.bytes;
/// The most sites a sheet may have: one of edition 2.
pub const SITES: usize = Edition::TWO.sites;
/// The largest size and the largest reserve of a link, in circuits.
pub const CAPACITY: u32 = 1_000_000;
/// The length of the program's report buffer, enough for every accepted sheet.
pub const REPORT_BYTES: usize = 65_536;

/// The number of a site or a link, from 0 in the order of their lines; or how many there are.
type Site = u16;

/// The places of a table with one for each site. There is one more where an error can be planted that
/// accepts a site more.
const PLACES: usize = SITES + cfg!(feature = "planted") as usize;

/// What a planner answers.
#[derive(Clone, Copy, Debug, PartialEq, Eq)]
pub enum Outcome {
    /// The report stands at the start of the buffer, or the order at the start of the list.
    Report {
        /// Its length in bytes, or the count of sites.
        length: usize,
    },
    /// There is none, and the buffer or list is as it was.
    Refused {
        /// The number of the cause, 1 to 13, 17 or 19.
        number: u8,
        /// The line at fault, from 1, or 0 when no line is.
        line: u32,
    },
}

/// Why a sheet is refused.
#[derive(Clone, Copy, Debug, PartialEq, Eq)]
pub struct Refusal {
    /// The number of the cause.
    pub number: u8,
    /// The line at fault, from 1, or 0 when no line is.
    pub line: u32,
}

/// Plans the network of `sheet` in halves and writes the report headed `plan` into `buffer`.
///
/// On a refusal the buffer keeps its values; after a report the bytes past it keep theirs.
pub fn plan(sheet: &[u8], buffer: &mut [u8]) -> Outcome {
    plan_knowing(&Edition::ALL, sheet, buffer)
}

/// The same by a planner that knows some editions, to which the heading of another is none.
pub fn plan_knowing(known: &[Edition], sheet: &[u8], buffer: &mut [u8]) -> Outcome {
    answer(&mut Network::new(sheet), known, buffer, |network, tree| {
        let balanced = trim::balance(tree);
        let cuts = cuts::terminal_cuts(network, tree, &balanced);
        let shown = Shown {
            heading: b"plan",
            total: cuts.total(),
            balanced: &balanced,
            cuts: &cuts,
            odd_pieces: None,
            pairs: &pairs::pair(network, tree, &balanced),
        };
        report::write(network, tree, &shown)
    })
}

/// Plans the network of `sheet` in whole circuits and writes the report headed `whole` into
/// `buffer`, as [`plan`] does the other.
pub fn whole(sheet: &[u8], buffer: &mut [u8]) -> Outcome {
    answer(
        &mut Network::new(sheet),
        &Edition::ALL,
        buffer,
        |network, tree| {
            if planted(Error::WholeFromHighest) {
                return write_whole(network, &RootedTree::rooted(network, true));
            }
            write_whole(network, tree)
        },
    )
}

/// The report in whole circuits.
#[inline]
fn write_whole(network: &Network, tree: &RootedTree) -> Vec<u8> {
    let forest = Forest::new(tree);
    let loads = whole::loads(tree, &forest);
    let cuts = if planted(Error::SetsInHalves) {
        cuts::terminal_cuts(network, tree, &trim::balance(tree))
    } else {
        pieces::end_sets(network, tree, &forest, &loads)
    };
    let shown = Shown {
        heading: b"whole",
        total: tree.terminals().map(|end| loads.sum(end)).sum(),
        balanced: &loads,
        cuts: &cuts,
        odd_pieces: Some(pieces::odd_pieces(network, tree, &cuts, &loads)),
        pairs: &pairs::pair(network, tree, &loads),
    };
    report::write(network, tree, &shown)
}

/// Writes the numbers of all sites of `sheet`, counted from 1, into `list`: in the order taken, when
/// always the lowest-numbered untaken site with at most one unvisited link is taken.
///
/// On a refusal the list keeps its values; after an order the places past it keep theirs.
pub fn order(sheet: &[u8], list: &mut [usize]) -> Outcome {
    let mut network = Network::new(sheet);
    let read = network.read(&Edition::ALL);
    let is_short = network.site_count() > list.len();
    if let Err(Refusal { number, line }) = read
        && !(planted(Error::ShortListFirst) && is_short)
    {
        return Outcome::Refused { number, line };
    }
    if !is_short || planted(Error::ListOnRefusal) {
        for (place, site) in list.iter_mut().zip(order::order(&network)) {
            *place = usize::from(site) + 1;
        }
    }
    if is_short {
        return Outcome::Refused { number: 9, line: 0 };
    }
    Outcome::Report {
        length: network.site_count(),
    }
}

/// Writes a line for each site of `sheet` in the order taken into `buffer`: its number, tab, its
/// name.
pub fn order_lines(sheet: &[u8], buffer: &mut [u8]) -> Outcome {
    answer(
        &mut Network::new(sheet),
        &Edition::ALL,
        buffer,
        |network, _| order::lines(network),
    )
}

/// The `P` lines of the walk over an accepted sheet, with loads of its links, in the order of
/// their lines, in the place of trimmed sizes. No link may be heavy by these loads at a joint.
///
/// There are none if the sheet is refused or has another number of links.
#[must_use]
pub fn pair_lines(sheet: &[u8], loads: &[u32]) -> Option<Vec<u8>> {
    let mut network = Network::new(sheet);
    network.read(&Edition::ALL).ok()?;
    if network.links().len() != loads.len() {
        return None;
    }
    let tree = RootedTree::new(&network);
    let mut by_child = [0; PLACES];
    for (link, &load) in network.links().iter().zip(loads) {
        by_child[usize::from(tree.child(link.sites))] = load;
    }
    let pairs = pairs::pair(&network, &tree, &Balanced::new(&tree, &by_child));
    let mut text = Vec::new();
    report::push_pairs(&mut text, &network, &pairs);
    Some(text)
}

/// Reads the sheet of an empty network by the editions that are known, lets its report be written, and puts that
/// into `buffer`.
#[inline]
fn answer(
    network: &mut Network,
    known: &[Edition],
    buffer: &mut [u8],
    write: impl FnOnce(&Network, &RootedTree) -> Vec<u8>,
) -> Outcome {
    if let Err(Refusal { number, line }) = network.read(known) {
        return Outcome::Refused { number, line };
    }
    let report = write(network, &RootedTree::new(network));
    let length = report.len();
    if length > buffer.len() || (planted(Error::FullBuffer) && length == buffer.len()) {
        return Outcome::Refused { number: 9, line: 0 };
    }
    buffer[..length].copy_from_slice(&report);
    Outcome::Report { length }
}
