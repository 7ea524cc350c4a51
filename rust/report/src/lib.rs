//! Printed reports, read back: their lines and numbers, and whole reports headed `plan` or `whole`.
//!
//! ```
//! let text = b"plan\t8\t1\nL\ta\tb\t4\t4\nN\ta\ta\nN\tb\tb\nX\ta\t4\t1\nX\tb\t4\t1\nP\ta\tb\t8\n";
//! let report = report::Report::read(text)?;
//! assert_eq!((report.names, report.total), (vec!["a", "b"], 8));
//! assert_eq!(report.pairs[0].sites, [0, 1]);
//! # Ok::<(), String>(())
//! ```

#![forbid(unsafe_code)]

mod lines;

pub use lines::{Lines, number, read};
use std::collections::HashMap;

/// What a report headed `plan` or `whole` says. Sites are numbered from 0 by their lines.
#[derive(Clone, Debug, PartialEq, Eq)]
pub struct Report<'text> {
    /// The total in halves.
    pub total: u64,
    /// The links, in the order of the sheet.
    pub links: Vec<Link>,
    /// The name of each site.
    pub names: Vec<&'text str>,
    /// The end whose set holds each site, if one does.
    pub owners: Vec<Option<usize>>,
    /// The end sets, in the order of their ends.
    pub sets: Vec<Set>,
    /// The number of odd pieces, which only a report headed `whole` tells.
    pub odd_pieces: Option<u64>,
    /// The pairs that are joined.
    pub pairs: Vec<Pair>,
}

/// A link on its line.
#[derive(Clone, Copy, Debug, PartialEq, Eq)]
pub struct Link {
    /// Its two sites.
    pub sites: [usize; 2],
    /// Its usable size, in circuits.
    pub usable: u64,
    /// Its trimmed size in circuits, or in a report headed `whole` its load.
    pub carried: u64,
}

/// An end set on the line of its end.
#[derive(Clone, Copy, Debug, PartialEq, Eq)]
pub struct Set {
    /// Its end.
    pub end: usize,
    /// Its size, in circuits.
    pub size: u64,
    /// How many sites it has.
    pub count: u64,
}

/// A pair on its line.
#[derive(Clone, Copy, Debug, PartialEq, Eq)]
pub struct Pair {
    /// Its two ends.
    pub sites: [usize; 2],
    /// The amount between them, in halves.
    pub amount: u64,
}

impl<'text> Report<'text> {
    /// Reads a report. Every name in it must be spelt as on the line of its site.
    ///
    /// # Errors
    ///
    /// What is wrong, if the text has not the form of such a report.
    pub fn read(text: &'text [u8]) -> Result<Self, String> {
        let mut lines = Lines { rest: text };
        let is_whole = lines.is_next("whole");
        let [total, count] = lines.next(if is_whole { "whole" } else { "plan" })?;
        let links = lines.all::<4>("L")?;
        let sites = lines.all::<2>("N")?;
        let sets = lines.all::<3>("X")?;
        let odd_pieces = if is_whole {
            let [count] = lines.next("Q")?;
            Some(read(count)?)
        } else {
            None
        };
        let pairs = lines.all::<3>("P")?;
        if !lines.rest.is_empty() || read(count)? != pairs.len() as u64 {
            return Err("the report has another number of pairs".to_string());
        }
        let by_name = Sites::new(&sites);
        Ok(Report {
            total: read(total)?,
            links: each(&links, |fields| by_name.link(fields))?,
            names: each(&sites, |[name, _]| text_of(name))?,
            owners: each(&sites, |[_, owner]| by_name.owner(owner))?,
            sets: each(&sets, |fields| by_name.set(fields))?,
            odd_pieces,
            pairs: each(&pairs, |fields| by_name.pair(fields))?,
        })
    }
}

/// Reads each of some lines.
fn each<Fields, Item>(
    lines: &[Fields],
    read: impl FnMut(&Fields) -> Result<Item, String>,
) -> Result<Vec<Item>, String> {
    lines.iter().map(read).collect()
}

fn text_of(name: &[u8]) -> Result<&str, String> {
    std::str::from_utf8(name).map_err(|_| "a name is no text".to_string())
}

/// The number of each site, by its name.
struct Sites<'text> {
    numbers: HashMap<&'text [u8], usize>,
}

impl<'text> Sites<'text> {
    fn new(lines: &[[&'text [u8]; 2]]) -> Self {
        let names = lines.iter().map(|&[name, _]| name);
        Sites {
            numbers: names.zip(0..).collect(),
        }
    }

    fn site(&self, name: &[u8]) -> Result<usize, String> {
        let number = self.numbers.get(name).copied();
        number.ok_or_else(|| "a name is that of no site".to_string())
    }

    fn owner(&self, name: &[u8]) -> Result<Option<usize>, String> {
        if name == b"-" {
            Ok(None)
        } else {
            self.site(name).map(Some)
        }
    }

    fn link(&self, [one, other, usable, carried]: &[&[u8]; 4]) -> Result<Link, String> {
        Ok(Link {
            sites: [self.site(one)?, self.site(other)?],
            usable: read(usable)?,
            carried: read(carried)?,
        })
    }

    fn set(&self, [end, size, count]: &[&[u8]; 3]) -> Result<Set, String> {
        Ok(Set {
            end: self.site(end)?,
            size: read(size)?,
            count: read(count)?,
        })
    }

    fn pair(&self, [one, other, amount]: &[&[u8]; 3]) -> Result<Pair, String> {
        Ok(Pair {
            sites: [self.site(one)?, self.site(other)?],
            amount: read(amount)?,
        })
    }
}
