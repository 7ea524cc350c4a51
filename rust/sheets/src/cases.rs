//! Names in either case: spellings, and small sheets over a few names with what is due by the words
//! of the card.

use crate::bare::is_bare;
use crate::tried::tabbed;
use crate::{Edition, Random};

/// One of the spellings of a name, in which each letter is small or capital.
pub fn in_either_case(name: &[u8], random: &mut Random) -> Vec<u8> {
    let mut name = name.to_vec();
    match random.below(4) {
        0 => name.make_ascii_uppercase(),
        1 => name.make_ascii_lowercase(),
        2 => {
            let place = random.below(name.len());
            turn_case(&mut name[place]);
        }
        _ => {
            for byte in &mut name {
                if random.once_in(2) {
                    turn_case(byte);
                }
            }
        }
    }
    name
}

/// Makes a small letter a capital and the other way round; a digit stays.
fn turn_case(byte: &mut u8) {
    if byte.is_ascii_lowercase() {
        byte.make_ascii_uppercase();
    } else {
        byte.make_ascii_lowercase();
    }
}

/// What is due of a sheet.
#[derive(Clone, Debug, PartialEq, Eq)]
pub enum Due {
    /// The whole report headed `plan`.
    Report(Vec<u8>),
    /// The number and the line of the refusal.
    Refused(u8, u32),
}

impl Due {
    /// The report on two sites and a link that names them in either order, with a usable size. Nothing is
    /// trimmed, and the ends are the same whatever is marked.
    pub(crate) fn of_two_sites(sites: [&str; 2], link: [&str; 2], usable: u32) -> Due {
        let [first, second] = sites;
        let [from, to] = link;
        let halves = 2 * usable;
        let pair = match usable {
            0 => String::new(),
            _ => format!("P {first} {second} {halves}\n"),
        };
        Due::Report(tabbed(&format!(
            "plan {halves} {}\nL {from} {to} {usable} {usable}\nN {first} {first}\nN {second} {second}\n\
             X {first} {usable} 1\nX {second} {usable} 1\n{pair}",
            u8::from(usable > 0)
        )))
    }

    /// What is due in whole circuits of a sheet with two sites, where nothing is left free: the same
    /// but for the heading and the number of odd pieces, which is 0.
    #[must_use]
    pub fn in_whole_circuits(&self) -> Due {
        let Due::Report(report) = self else {
            return self.clone();
        };
        let report = String::from_utf8_lossy(report);
        let (pair, lines): (Vec<&str>, Vec<&str>) = report
            .split_inclusive('\n')
            .partition(|line| line.starts_with("P\t"));
        let lines = lines.concat().replacen("plan", "whole", 1);
        Due::Report([lines.as_str(), "Q\t0\n", &pair.concat()].concat().into())
    }
}

/// Calls `see` with sheets of two sites and a link, and what is due of each; returns how many.
///
/// The four names of a sheet are taken in all ways out of one list. The lists: names of one byte, at
/// the borders of letters and digits; all names of one or two bytes out of `p`, `P` and `0`, of which
/// the low bits are the same; for several lengths and every place the names that have one of these
/// there and are alike in all other places.
///
/// # Errors
///
/// The first that `see` returns.
pub fn every_sheet<Failure>(
    mut see: impl FnMut(&[u8], &Due) -> Result<(), Failure>,
) -> Result<usize, Failure> {
    let mut count = 0;
    for names in lists_of_names() {
        for number in 0..names.len().pow(4) {
            let name = |place| names[number / names.len().pow(place) % names.len()].as_str();
            let [sites, link] = [[name(0), name(1)], [name(2), name(3)]];
            see(&sheet(sites, link), &due(sites, link))?;
            count += 1;
        }
    }
    Ok(count)
}

/// The lists of names, of each of which all sheets are made.
fn lists_of_names() -> Vec<Vec<String>> {
    const OF_ONE_BYTE: [&str; 8] = ["a", "A", "z", "Z", "0", "P", "p", "9"];
    const CLOSE: [&str; 3] = ["p", "P", "0"];
    const TEXT: &str = "Hill9zA0pP5q";
    let with = |before: &str, after: &str| CLOSE.map(|byte| format!("{before}{byte}{after}"));
    let mut lists = vec![
        OF_ONE_BYTE.map(String::from).to_vec(),
        ["", "p", "P", "0"].map(|before| with(before, "")).concat(),
    ];
    for length in [1, 7, 8, 9, 12] {
        for place in 0..length {
            lists.push(with(&TEXT[..place], &TEXT[place + 1..length]).to_vec());
        }
    }
    lists
}

/// The sheet of two sites and a link of size 1.
fn sheet(sites: [&str; 2], link: [&str; 2]) -> Vec<u8> {
    let [first, second] = sites;
    let [from, to] = link;
    let lines = format!("\nN {first}\nN {second}\nL {from} {to} 1\n");
    [Edition::One.heading(), &tabbed(&lines)].concat()
}

/// What is due of it. Two names are the same if they agree when a-z is read as A-Z; none is a bare number.
fn due(sites: [&str; 2], link: [&str; 2]) -> Due {
    if is_bare(sites[0].as_bytes()) {
        return Due::Refused(17, 2);
    }
    if is_bare(sites[1].as_bytes()) {
        return Due::Refused(17, 3);
    }
    if sites[0].eq_ignore_ascii_case(sites[1]) {
        return Due::Refused(5, 3);
    }
    if link.iter().any(|name| is_bare(name.as_bytes())) {
        return Due::Refused(17, 4);
    }
    let site = |name: &str| {
        sites
            .into_iter()
            .find(|site| site.eq_ignore_ascii_case(name))
    };
    let [Some(from), Some(to)] = link.map(site) else {
        return Due::Refused(6, 4);
    };
    if from == to {
        return Due::Refused(7, 4);
    }
    Due::of_two_sites(sites, [from, to], 1)
}
