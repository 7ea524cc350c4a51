//! The exercise book: both programs, and what is due of every line by the words of its card.
//!
//! Each line is read back and taken for what it says: its links are a tree of the sites up to its highest number, its
//! total is the greatest by linear programming, and it stands above all lines before it in the card's order. Then no
//! tree stands there twice, and the counts of the card show that none is missing.

use crate::Failure;
use crate::exact::{self, Fraction};
use crate::programs::{Expected, Words, run_words};
use sheets::{Edition, Network, Spelling};
use std::path::PathBuf;
use std::time::Instant;

/// The numbers of sites, and how many lines there are of each.
const COUNTS: [(usize, usize); 4] = [(2, 3), (3, 27), (4, 432), (5, 10_125)];
/// The largest size.
const LARGEST: u32 = 2;

/// The programs that print the book.
pub struct Programs {
    pub proved: PathBuf,
    pub second: PathBuf,
}

/// A line: the number of sites, the list of links, the list of sizes. It is compared in this order.
type Entry = (usize, Vec<[usize; 2]>, Vec<u32>);

impl Programs {
    /// Compares what the programs print with the book of the second planner byte for byte, and checks that against
    /// the card. The program of the second planner is left out where an error is planted in it.
    pub fn compare(&self, is_planted: bool) -> Result<(), Failure> {
        let start = Instant::now();
        let book = second::book();
        let due = Expected {
            printed: book.clone(),
            words: Words::None,
        };
        let mut compared = run_words(&self.proved, &[], &due);
        if !is_planted {
            compared = compared
                .and_then(|()| run_words(&self.second, &[], &due))
                .and_then(|()| check(&book));
        }
        compared.map_err(|what| Failure {
            sheet: None,
            index: None,
            what: format!("the exercise book: {what}"),
        })?;
        println!(
            "exercise book: {} bytes alike in {:.1} s, 3, 27, 432 and 10,125 lines in order, totals found by linear \
             programming",
            book.len(),
            start.elapsed().as_secs_f64()
        );
        Ok(())
    }
}

/// Checks a book against the card.
fn check(book: &[u8]) -> Result<(), String> {
    let text = std::str::from_utf8(book).map_err(|error| error.to_string())?;
    let mut before: Option<Entry> = None;
    let mut counts = COUNTS.map(|(sites, _)| (sites, 0));
    for line in text.split_inclusive('\n') {
        let told = |what: &str| format!("{line:?}: {what}");
        let (entry, total) = read(line).ok_or(told("no line of a book"))?;
        let network = network(&entry).ok_or(told("no tree"))?;
        let greatest = exact::greatest_total(&network);
        if greatest + greatest != Fraction::whole(total) {
            return Err(told(&format!("{greatest:?} is the greatest total")));
        }
        if before.is_some_and(|before| before >= entry) {
            return Err(told("it stands behind a later line"));
        }
        for (sites, count) in &mut counts {
            *count += usize::from(*sites == entry.0);
        }
        before = Some(entry);
    }
    if counts != COUNTS {
        return Err(format!("{counts:?} lines where {COUNTS:?} are due"));
    }
    Ok(())
}

/// What a line says, and its total. Links are told with the lower number first, in ascending order.
fn read(line: &str) -> Option<(Entry, u64)> {
    let fields: Vec<&str> = line.strip_suffix('\n')?.split('\t').collect();
    let [links, sizes, total] = fields[..] else {
        return None;
    };
    let link = |text: &str| {
        let (lower, higher) = text.split_once('-')?;
        let link = [number(lower)? as usize, number(higher)? as usize];
        (0 < link[0] && link[0] < link[1]).then_some(link)
    };
    let links: Vec<[usize; 2]> = links.split(',').map(link).collect::<Option<_>>()?;
    let size = |text| number(text).map(|size| size as u32);
    let sizes: Vec<u32> = sizes.split(',').map(size).collect::<Option<_>>()?;
    let is_right = links.is_sorted()
        && sizes.len() == links.len()
        && sizes.iter().all(|&size| size <= LARGEST);
    let total = number(total)?;
    is_right.then_some(((links.len() + 1, links, sizes), total))
}

/// A number written without a leading zero.
fn number(text: &str) -> Option<u64> {
    let number: u64 = text.parse().ok()?;
    (number.to_string() == text).then_some(number)
}

/// The tree of a line, if its links are one: each site is reached from the first.
fn network((sites, links, sizes): &Entry) -> Option<Network> {
    let network = Network {
        edition: Edition::One,
        names: (1..=*sites).map(|site| format!("s{site}").into()).collect(),
        marks: vec![false; *sites],
        links: links.iter().map(|link| link.map(|site| site - 1)).collect(),
        sizes: sizes.clone(),
        reserves: vec![None; links.len()],
        spelling: Spelling::AsGiven,
    };
    if network.links.iter().flatten().any(|site| site >= sites) {
        return None;
    }
    let around = network.around();
    let mut is_reached = vec![false; *sites];
    is_reached[0] = true;
    let mut reached = vec![0];
    while let Some(site) = reached.pop() {
        for &(_, other) in &around[site] {
            if !is_reached[other] {
                is_reached[other] = true;
                reached.push(other);
            }
        }
    }
    is_reached.iter().all(|&is| is).then_some(network)
}

#[cfg(test)]
mod tests {
    use super::{check, network, read};

    #[test]
    fn lines_read_back() {
        let line = read("1-2,1-3\t1,2\t2\n");
        let entry = (3, vec![[1, 2], [1, 3]], vec![1, 2]);
        assert_eq!(line, Some((entry, 2)));
        for text in [
            "1-2,1-3\t1,2\t2",
            "1-2,1-3\t1,2\t02\n",
            "1-3,1-2\t1,2\t2\n",
            "2-1,1-3\t1,2\t2\n",
            "1-2,1-3\t1\t2\n",
            "1-2,1-3\t1,3\t2\n",
            "1-2,1-3 1,2 2\n",
        ] {
            assert_eq!(read(text), None, "{text:?}");
        }
    }

    #[test]
    fn rings_and_sites_left_out() {
        for (text, is_tree) in [
            ("1-2,1-3,1-4\t0,0,0\t0\n", true),
            ("1-2,1-3,2-3\t0,0,0\t0\n", false),
            ("1-2,2-4\t0,0\t0\n", false),
        ] {
            let (entry, _) = read(text).expect("a line");
            assert_eq!(network(&entry).is_some(), is_tree, "{text:?}");
        }
    }

    #[test]
    fn wrong_books() {
        let book = String::from_utf8(second::book()).expect("digits and marks");
        assert_eq!(check(book.as_bytes()), Ok(()));
        for (from, to) in [
            ("1-2,1-3,1-4\t2,1,0\t2\n", "1-2,1-3,1-4\t2,1,0\t3\n"),
            ("1-2\t1\t2\n1-2\t2\t4\n", "1-2\t2\t4\n1-2\t1\t2\n"),
            ("1-2\t1\t2\n", "1-2\t1\t2\n1-2\t1\t2\n"),
            ("1-5,2-5,3-5,4-5\t2,2,2,2\t8\n", ""),
        ] {
            assert_eq!(book.matches(from).count(), 1, "{from:?}");
            assert!(
                check(book.replace(from, to).as_bytes()).is_err(),
                "{from:?}"
            );
        }
    }
}
