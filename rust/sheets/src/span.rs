//! What is due of a range sheet, by the words of the card.
//!
//! Any text is read here line by line, slowly and plainly, and with nothing of a planner; and heavy links are cut as
//! long as there is one, among the low sizes and among the high ones.

use crate::bare::fault_of_names;
use crate::cases::Due;
use crate::joined::{link_between, site, sum_at_ends, trimmed};
use crate::reserve::value;
use crate::{Edition, Network, SIZE, Spelling};

/// Line 1 of a range sheet.
pub const HEADING: &[u8] = b"ranges\t1";

/// What a range sheet tells: a tree with the low sizes, and the high ones.
pub struct Ranges {
    /// The tree with the low sizes.
    pub low: Network,
    /// The high sizes.
    pub highs: Vec<u32>,
}

impl Ranges {
    /// The tree with other sizes.
    #[must_use]
    pub fn with_sizes(&self, sizes: &[u32]) -> Network {
        let mut network = self.low.clone();
        network.sizes = sizes.to_vec();
        network
    }
}

/// What is due of a text that is offered as a range sheet.
#[must_use]
pub fn due(sheet: &[u8]) -> Due {
    match read(sheet) {
        Ok(ranges) => Due::Report(report(&ranges)),
        Err((number, line)) => Due::Refused(number, line),
    }
}

/// Reads a range sheet: its bytes and sites are counted by edition 2, whatever its heading; then the lowest line with
/// a fault decides, then whether all sites are joined.
///
/// # Errors
///
/// The number and the line of its refusal.
pub fn read(sheet: &[u8]) -> Result<Ranges, (u8, u32)> {
    if sheet.is_empty() || sheet.len() > Edition::Two.bytes() {
        return Err((1, 0));
    }
    let mut ranges = Ranges {
        low: Network {
            edition: Edition::Two,
            names: Vec::new(),
            marks: Vec::new(),
            links: Vec::new(),
            sizes: Vec::new(),
            reserves: Vec::new(),
            spelling: Spelling::AsGiven,
        },
        highs: Vec::new(),
    };
    // Of each site the lowest-numbered one that it is joined to.
    let mut group = Vec::new();
    for (line, number) in sheet.split_inclusive(|&byte| byte == b'\n').zip(1..) {
        let read = match line.strip_suffix(b"\n") {
            None => Err(2),
            Some(line) if number == 1 && line == HEADING => Ok(()),
            Some(_) if number == 1 => Err(2),
            Some(line) => read_line(&mut ranges, &mut group, line),
        };
        read.map_err(|fault| (fault, number))?;
    }
    if group.len() < 2 || group.iter().any(|&site| site != 0) {
        return Err((8, 0));
    }
    Ok(ranges)
}

/// Reads a line below the heading, or tells its first fault: for a site 2, 10, 11, 17, 4, 5; for a link 2, 10, 11,
/// 17, 12, 3, 19, 6, 7.
fn read_line(ranges: &mut Ranges, group: &mut Vec<usize>, line: &[u8]) -> Result<(), u8> {
    let fields: Vec<&[u8]> = line.split(|&byte| byte == b'\t').collect();
    let network = &mut ranges.low;
    match fields[..] {
        [letter @ (b"N" | b"T"), name] => {
            fault_of_names(&[name]).map_or(Ok(()), Err)?;
            if network.names.len() == Edition::Two.sites() {
                return Err(4);
            }
            if site(network, name).is_some() {
                return Err(5);
            }
            group.push(group.len());
            network.names.push(name.to_vec());
            network.marks.push(letter == b"T");
            Ok(())
        }
        [b"L", one, other, low, high] => {
            fault_of_names(&[one, other]).map_or(Ok(()), Err)?;
            let number = |field| std::str::from_utf8(field).ok().and_then(size);
            let [Some(low), Some(high)] = [low, high].map(number) else {
                return Err(12);
            };
            if low.max(high) > SIZE {
                return Err(3);
            }
            if low > high {
                return Err(19);
            }
            let [Some(one), Some(other)] = [one, other].map(|name| site(network, name)) else {
                return Err(6);
            };
            if group[one] == group[other] {
                return Err(7);
            }
            debug_assert_eq!(link_between(network, [one, other]), None);
            let [kept, joined] = [group[one].min(group[other]), group[one].max(group[other])];
            for site in group.iter_mut().filter(|site| **site == joined) {
                *site = kept;
            }
            network.links.push([one, other]);
            network.sizes.push(low);
            network.reserves.push(None);
            ranges.highs.push(high);
            Ok(())
        }
        [b"N" | b"T" | b"L", ..] => Err(10),
        _ => Err(2),
    }
}

/// The value of a number that is well written; every one that is too large may be another such.
fn size(text: &str) -> Option<u32> {
    let is_long = text.len() > 7 && text.bytes().all(|it| it.is_ascii_digit());
    if is_long && !text.starts_with('0') {
        return Some(SIZE + 1);
    }
    value(text).map(|number| number as u32)
}

/// The total in halves, and the trimmed sizes.
fn planned(network: &Network) -> (u64, Vec<u64>) {
    let sizes = trimmed(network);
    let total = sum_at_ends(network, &sizes, 0..network.names.len());
    (total, sizes)
}

/// The whole report.
fn report(ranges: &Ranges) -> Vec<u8> {
    let low = &ranges.low;
    let (least, least_sizes) = planned(low);
    let (greatest, greatest_sizes) = planned(&ranges.with_sizes(&ranges.highs));
    let mut lines = vec![format!("span\t{least}\t{greatest}\n")];
    for (link, sites) in low.links.iter().enumerate() {
        let [one, other] = sites.map(|site| String::from_utf8_lossy(&low.names[site]));
        lines.push(format!(
            "L\t{one}\t{other}\t{}\t{}\t{}\t{}\n",
            low.sizes[link], ranges.highs[link], least_sizes[link], greatest_sizes[link]
        ));
    }
    lines.concat().into_bytes()
}
