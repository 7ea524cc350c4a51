//! Lines that name two ends and an amount in halves: those of booking logs and of plans drawn by hand.

use crate::form;
use crate::names::{Name, NameTable, Place};
use crate::network::{Network, load, read_name, read_number};
use crate::planted::{Error, planted};
use crate::tree::RootedTree;
use crate::{CAPACITY, PLACES, Site};

/// The largest amount of a line, in halves.
pub const AMOUNT: u32 = 2 * CAPACITY;

/// The text with the lines, where another is read with the sheet; the sheet is 1.
pub const SHEET: u8 = 1;
pub const OTHER_TEXT: u8 = 2;

pub const TOO_LONG: u8 = 1;
pub const AMOUNT_RANGE: u8 = 3;
pub const NOT_FREE_ENDS: u8 = 6;
const LETTER_OR_ENDING: u8 = 2;
const FIELD_COUNT: u8 = 10;

/// A line whose form is right. An amount that is too large may be another such amount.
pub struct PairLine {
    pub letter: u8,
    pub names: [Name; 2],
    pub halves: u32,
}

/// The number of lines; what is behind the last byte 10 is one too.
pub fn line_count(text: &[u8]) -> usize {
    let ended: usize = text.iter().map(|&byte| usize::from(byte == b'\n')).sum();
    let is_unended = text.last().is_some_and(|&byte| byte != b'\n');
    ended + usize::from(is_unended && !planted(Error::UnendedLeftOut))
}

/// Reads the line at `start`, whose letter must be one of some: the line or the number of its fault of form, and
/// where the next line starts.
#[inline(always)]
pub fn read_line(
    text: &[u8],
    start: usize,
    is_letter: impl Fn(u8) -> bool,
) -> (Result<PairLine, u8>, usize) {
    match read_fields(text, start, &is_letter) {
        Some((line, next)) => (Ok(line), next),
        None => form_fault(&text[start..], start, is_letter),
    }
}

/// The line at `start`, and where the next line starts; none if the form is wrong.
#[inline(always)]
fn read_fields(
    text: &[u8],
    start: usize,
    is_letter: impl Fn(u8) -> bool,
) -> Option<(PairLine, usize)> {
    let [letter, b'\t'] = load::<2>(text, start) else {
        return None;
    };
    if !is_letter(letter) {
        return None;
    }
    let (first, position) = read_name(text, start + 2, b'\t', Place::Log(0)).ok()?;
    let (second, position) = read_name(text, position, b'\t', Place::Log(1)).ok()?;
    let (halves, after, next) = read_number(text, position).ok()?;
    let names = [first, second];
    let line = PairLine {
        letter,
        names,
        halves,
    };
    (after == b'\n').then_some((line, next))
}

/// The fault of the line at the start of `rest`, whose form is wrong, and where the next line starts.
#[cold]
fn form_fault(
    rest: &[u8],
    start: usize,
    is_letter: impl Fn(u8) -> bool,
) -> (Result<PairLine, u8>, usize) {
    let Some(length) = rest.iter().position(|&byte| byte == b'\n') else {
        return (Err(LETTER_OR_ENDING), start + rest.len());
    };
    let fields: Vec<&[u8]> = rest[..length].split(|&byte| byte == b'\t').collect();
    let number = match fields[..] {
        [[letter], first, second, amount] if is_letter(*letter) => {
            form::fault_of_fields(&[first, second], &[amount], Place::Log)
        }
        [[letter], ..] if is_letter(*letter) => FIELD_COUNT,
        _ => LETTER_OR_ENDING,
    };
    (Err(number), start + length + 1)
}

/// The ends of a network, found by their names.
///
/// Sites are numbered anew, the root 0 and every other site above its parent. What belongs to the
/// link between a site and its parent is kept at the place of that site.
pub struct Ends<'network> {
    network: &'network Network<'network>,
    table: &'network NameTable,
    /// The new number of each site, and whether it is an end.
    number: [Site; PLACES],
    is_end: [bool; PLACES],
    pub parent: [Site; PLACES],
    /// The part of the link between each site and its parent, told by its highest site below the end that
    /// starts it, or by the root if no end does.
    part: [Site; PLACES],
    /// The capacity of each link.
    pub capacity: [u32; PLACES],
}

impl<'network> Ends<'network> {
    /// No ends.
    pub fn none(network: &'network Network, table: &'network NameTable) -> Self {
        Ends {
            network,
            table,
            number: [0; PLACES],
            is_end: [false; PLACES],
            parent: [0; PLACES],
            part: [0; PLACES],
            capacity: [0; PLACES],
        }
    }

    /// The ends of a network, given its tree.
    pub fn new(network: &'network Network, table: &'network NameTable, tree: &RootedTree) -> Self {
        let mut ends = Self::none(network, table);
        ends.is_end[usize::from(tree.root())] = tree.is_terminal(tree.root());
        for (above, &site) in tree.leaves_first().iter().rev().enumerate() {
            let number = above + 1;
            ends.number[usize::from(site)] = number as Site;
            ends.is_end[usize::from(site)] = tree.is_terminal(site);
            let parent = ends.number[usize::from(tree.parent(site))];
            ends.parent[number] = parent;
            ends.part[number] = if tree.is_terminal(tree.parent(site)) {
                number as Site
            } else {
                ends.part[usize::from(parent)]
            };
            ends.capacity[number] = tree.capacity(site);
        }
        ends
    }

    /// The two different ends that are named, by their new numbers, if they are free to be joined. Names are
    /// read in either case; but by bytes if the error that does so is planted.
    #[inline]
    pub fn two_ends(&self, names: [Name; 2], by_bytes: Error) -> Option<[Site; 2]> {
        let first = self.end(names[0], by_bytes)?;
        let second = self.end(names[1], by_bytes)?;
        (first != second && self.is_free([first, second])).then_some([first, second])
    }

    /// Whether two different ends have no other end on their path: they are both below the end that
    /// starts a part, or one of them is that end.
    #[inline]
    fn is_free(&self, ends: [Site; 2]) -> bool {
        let [first, second] = ends.map(|end| self.part[usize::from(end)]);
        let starts = |end, part| self.parent[usize::from(part)] == end;
        first == second
            || starts(ends[0], second)
            || starts(ends[1], first)
            || planted(Error::AcrossAccepted)
    }

    #[inline]
    fn end(&self, name: Name, by_bytes: Error) -> Option<Site> {
        let site = self.network.site(self.table, name, by_bytes)?;
        let is_end = self.is_end[usize::from(site)] || planted(Error::JointsAccepted);
        is_end.then_some(self.number[usize::from(site)])
    }
}
