//! Replaying a booking log over a network.
//!
//! Each line of the log asks to open an amount between two ends or to give one up, and gets one
//! answer: 0, or the number of the first cause against it.

use crate::edition::Edition;
use crate::names::NameTable;
use crate::network::Network;
use crate::pair_lines::{
    AMOUNT, AMOUNT_RANGE, Ends, NOT_FREE_ENDS, OTHER_TEXT, SHEET, TOO_LONG, line_count, read_line,
};
use crate::planted::{Error, planted};
use crate::tree::RootedTree;
use crate::{PLACES, Refusal, Site};

/// The longest log that is replayed, in bytes.
pub const LOG_BYTES: usize = 65_536;
/// The most lines a log may have.
pub const LOG_LINES: usize = 4_096;
/// The most pairs that may be open together.
pub const OPEN_PAIRS: usize = 512;

/// What becomes of a log.
#[derive(Clone, Copy, Debug, PartialEq, Eq)]
pub enum Replayed {
    /// The answers to its lines stand at the start of the list.
    Answered {
        /// How many lines it has.
        count: usize,
    },
    /// There are none, and the list is as it was.
    Refused {
        /// The text at fault: 1 is the sheet, 2 the log.
        text: u8,
        /// The number of the cause.
        number: u8,
        /// The line at fault, from 1, or 0 when no line is.
        line: u32,
    },
}

const LIST_TOO_SHORT: u8 = 9;
const LESS_OPEN: u8 = 14;
const OVERFILLED: u8 = 15;
const NO_PLACE: u8 = 16;

/// Replays `log` over the network of `sheet` and writes the answer to each line into `answers`: 0, or
/// the number of the first cause against it.
///
/// On a refusal the list keeps its values; after a replay the places past the answers keep theirs.
pub fn replay(sheet: &[u8], log: &[u8], answers: &mut [u64]) -> Replayed {
    let mut network = Network::new(sheet);
    let mut table = NameTable::new();
    if let Err(Refusal { number, line }) = network.read_with(&mut table, &Edition::ALL) {
        let text = SHEET;
        return Replayed::Refused { text, number, line };
    }
    let count = line_count(log);
    let mut desk = Desk::new(&network, &table);
    if let Some(Refusal { number, line }) = refusal(log, count, answers.len(), &desk) {
        if planted(Error::AnswersOnRefusal) {
            desk.answer_all(log, answers);
        }
        let text = OTHER_TEXT;
        return Replayed::Refused { text, number, line };
    }
    desk.answer_all(log, &mut answers[..count]);
    Replayed::Answered { count }
}

/// Why a log is refused as a whole.
fn refusal(log: &[u8], count: usize, places: usize, desk: &Desk) -> Option<Refusal> {
    if planted(Error::ShortAnswersFirst) && places < count {
        let number = LIST_TOO_SHORT;
        return Some(Refusal { number, line: 0 });
    }
    if log.len() > LOG_BYTES || count > LOG_LINES {
        let number = TOO_LONG;
        return Some(Refusal { number, line: 0 });
    }
    if places < count {
        let number = LIST_TOO_SHORT;
        return Some(Refusal { number, line: 0 });
    }
    if planted(Error::LogRefused) {
        return desk.first_fault(log);
    }
    None
}

/// What a line without a fault asks.
struct Request {
    opens: bool,
    sites: [Site; 2],
    halves: u32,
}

/// The network as the order desk sees it, and what is open. Sites have the numbers that its ends have.
struct Desk<'network> {
    ends: Ends<'network>,
    /// The most each link may carry, and what it does carry, in halves.
    most: [u32; PLACES],
    load: [u32; PLACES],
    pairs: OpenPairs,
}

impl<'network> Desk<'network> {
    fn new(network: &'network Network, table: &'network NameTable) -> Self {
        let ends = Ends::new(network, table, &RootedTree::new(network));
        let halves = 2 - u32::from(planted(Error::AgainstCapacity));
        Desk {
            most: ends.capacity.map(|capacity| halves * capacity),
            ends,
            load: [0; PLACES],
            pairs: OpenPairs::new(),
        }
    }

    /// Answers one line after the other, as many as there are answers.
    fn answer_all(&mut self, log: &[u8], answers: &mut [u64]) {
        let mut start = 0;
        for answer in answers {
            if planted(Error::AnswersOnRefusal) && start == log.len() {
                return;
            }
            let (asked, next) = self.read_line(log, start);
            *answer = match asked.and_then(|request| self.answer(&request)) {
                Ok(()) => 0,
                Err(number) => number.into(),
            };
            start = next;
        }
    }

    /// The first line with a fault of its own.
    #[cold]
    fn first_fault(&self, log: &[u8]) -> Option<Refusal> {
        let mut start = 0;
        let mut line = 0;
        while start < log.len() {
            let (asked, next) = self.read_line(log, start);
            line += 1;
            if let Err(number) = asked {
                return Some(Refusal { number, line });
            }
            start = next;
        }
        None
    }

    /// Reads the line at `start`: what it asks, or the number of its fault; and where the next line
    /// starts.
    #[inline]
    fn read_line(&self, log: &[u8], start: usize) -> (Result<Request, u8>, usize) {
        let (line, next) = read_line(log, start, |letter| letter == b'+' || letter == b'-');
        let line = match line {
            Ok(line) => line,
            Err(number) => return (Err(number), next),
        };
        let is_amount = (1..=AMOUNT).contains(&line.halves);
        if !is_amount && !planted(Error::EndsBeforeAmount) {
            return (Err(AMOUNT_RANGE), next);
        }
        let Some(sites) = self.ends.two_ends(line.names, Error::LogByBytes) else {
            return (Err(NOT_FREE_ENDS), next);
        };
        if !is_amount {
            return (Err(AMOUNT_RANGE), next);
        }
        let request = Request {
            opens: line.letter == b'+',
            sites,
            halves: line.halves,
        };
        (Ok(request), next)
    }

    /// Does what a line asks, or tells the cause against it and moves nothing.
    #[inline]
    fn answer(&mut self, request: &Request) -> Result<(), u8> {
        if request.opens {
            self.open(request)
        } else {
            self.give_up(request)
        }
    }

    #[inline]
    fn open(&mut self, request: &Request) -> Result<(), u8> {
        let places = OPEN_PAIRS + usize::from(planted(Error::OnePlaceMore));
        let slot = self.pairs.find(request.sites);
        let has_place = self.pairs.is_open(slot) || self.pairs.count < places;
        if planted(Error::PlaceBeforeLoad) && !has_place {
            return Err(NO_PLACE);
        }
        if self.overfills(request) {
            if planted(Error::RefusedOpensPlace) && has_place {
                self.pairs.open(slot, request.sites, 0);
            }
            return Err(OVERFILLED);
        }
        if !has_place {
            return Err(NO_PLACE);
        }
        climb(&self.ends.parent, request.sites, |link| {
            self.load[link] += request.halves;
            true
        });
        self.pairs.open(slot, request.sites, request.halves);
        Ok(())
    }

    /// Whether a link of the path would carry more than it may.
    #[inline]
    fn overfills(&self, request: &Request) -> bool {
        let mut is_overfilled = false;
        climb(&self.ends.parent, request.sites, |link| {
            is_overfilled = self.load[link] + request.halves > self.most[link];
            !is_overfilled && !planted(Error::FirstLinkOnly)
        });
        is_overfilled
    }

    #[inline]
    fn give_up(&mut self, request: &Request) -> Result<(), u8> {
        let slot = self.pairs.find(request.sites);
        let open = self.pairs.halves[slot];
        let mut halves = request.halves;
        if planted(Error::GiveUpByLoad) {
            let mut is_enough = true;
            climb(&self.ends.parent, request.sites, |link| {
                is_enough = self.load[link] >= halves;
                is_enough
            });
            if !is_enough {
                return Err(LESS_OPEN);
            }
        } else if open < halves {
            if !planted(Error::TakesLess) || open == 0 {
                return Err(LESS_OPEN);
            }
            halves = open;
        }
        climb(&self.ends.parent, request.sites, |link| {
            self.load[link] -= halves;
            true
        });
        if open > 0 {
            self.pairs.give_up(slot, halves.min(open));
        }
        Ok(())
    }
}

/// Goes along the path between two sites, up from both to where they meet, as long as `see` says so of
/// each link.
#[inline(always)]
fn climb(parent: &[Site; PLACES], sites: [Site; 2], mut see: impl FnMut(usize) -> bool) {
    let [mut one, mut other] = sites;
    // The one with the higher number lies neither above the other nor where they meet.
    while one != other {
        while one > other {
            let link = usize::from(one);
            one = parent[link];
            if !see(link) {
                return;
            }
        }
        (one, other) = (other, one);
    }
}

const SLOT_BITS: u32 = 10;
const SLOTS: usize = 1 << SLOT_BITS;

/// What each open pair has open: an open-addressed table, never more than about half full.
struct OpenPairs {
    /// The pair of each slot, or 0 for an empty one.
    key: [u32; SLOTS],
    halves: [u32; SLOTS],
    count: usize,
}

/// The key of two different sites, in either order. It is not 0.
#[inline]
fn key([mut one, mut other]: [Site; 2]) -> u32 {
    let key = |high: Site, low: Site| u32::from(high) << Site::BITS | u32::from(low);
    if planted(Error::PairsByByte) {
        (one, other) = (one % 256, other % 256);
    }
    if planted(Error::OrderedPairs) {
        return key(one, other);
    }
    key(one.max(other), one.min(other))
}

/// Where the search for a key starts.
#[inline]
fn home(key: u32) -> usize {
    (key.wrapping_mul(0x9e37_79b1) >> (32 - SLOT_BITS)) as usize
}

impl OpenPairs {
    fn new() -> Self {
        OpenPairs {
            key: [0; SLOTS],
            halves: [0; SLOTS],
            count: 0,
        }
    }

    /// The slot of a pair, or the empty one where it would be put. There nothing is open.
    #[inline]
    fn find(&self, sites: [Site; 2]) -> usize {
        let key = key(sites);
        let mut slot = home(key);
        while self.key[slot] != key && self.key[slot] != 0 {
            slot = (slot + 1) % SLOTS;
        }
        slot
    }

    #[inline]
    fn is_open(&self, slot: usize) -> bool {
        self.key[slot] != 0
    }

    /// Opens so much between two sites, whose search ended at the slot.
    #[inline]
    fn open(&mut self, slot: usize, sites: [Site; 2], halves: u32) {
        self.count += usize::from(!self.is_open(slot));
        self.key[slot] = key(sites);
        self.halves[slot] += halves;
    }

    /// Gives up so much of what the pair at the slot has open; with nothing left it gives its place
    /// back.
    #[inline]
    fn give_up(&mut self, slot: usize, halves: u32) {
        self.halves[slot] -= halves;
        if self.halves[slot] == 0 && !planted(Error::PlaceKept) {
            self.remove(slot);
            self.count -= 1;
        }
    }

    /// Empties a slot. Pairs behind it move up that a search would no longer reach.
    #[inline]
    fn remove(&mut self, mut hole: usize) {
        let mut slot = hole;
        loop {
            slot = (slot + 1) % SLOTS;
            if !self.is_open(slot) {
                break;
            }
            let behind = |start: usize| slot.wrapping_sub(start) % SLOTS;
            if behind(home(self.key[slot])) >= behind(hole) {
                self.key[hole] = self.key[slot];
                self.halves[hole] = self.halves[slot];
                hole = slot;
            }
        }
        self.key[hole] = 0;
        self.halves[hole] = 0;
    }
}

#[cfg(test)]
mod tests {
    use super::*;
    use std::collections::HashMap;

    /// All pairs of 40 sites far apart, opened and given up in a scrambled order, against a map of the
    /// standard library.
    #[test]
    fn open_pairs_are_kept() {
        let mut pairs = OpenPairs::new();
        let mut due: HashMap<[Site; 2], u32> = HashMap::new();
        let mut state = 1_u64;
        let mut draw = |limit: u64| {
            state = state
                .wrapping_mul(6_364_136_223_846_793_005)
                .wrapping_add(1);
            ((state >> 33) % limit) as u32
        };
        for _ in 0..200_000 {
            let sites = [0; 2].map(|_| 9 * draw(40) as Site);
            let ascending = [sites[0].min(sites[1]), sites[0].max(sites[1])];
            let slot = pairs.find(sites);
            let open = due.get(&ascending).copied().unwrap_or(0);
            assert_eq!(pairs.halves[slot], open);
            assert_eq!(pairs.is_open(slot), open > 0);
            if sites[0] == sites[1] {
                continue;
            }
            if open == 0 && due.len() < OPEN_PAIRS {
                let halves = 1 + draw(3);
                pairs.open(slot, sites, halves);
                due.insert(ascending, halves);
            } else if open > 0 {
                let halves = 1 + draw(open.into());
                pairs.give_up(slot, halves);
                if halves == open {
                    due.remove(&ascending);
                } else {
                    due.insert(ascending, open - halves);
                }
            }
            assert_eq!(pairs.count, due.len());
        }
        assert!(due.len() > 300);
    }
}
