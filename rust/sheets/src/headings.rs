//! Editions: sheets under many first lines and of many lengths, and trees with about as many sites as an
//! edition has, with what is due by the words of the card.

use crate::cases::Due;
use crate::tried::tabbed;
use crate::{Edition, Layout, Names, Network, Random, SHAPES, Shape, Sizes};

/// First lines: the headings of both editions, and such as look much like them.
pub(crate) const FIRST_LINES: [&str; 44] = [
    "network 1",
    "network 2",
    "network 3",
    "network 0",
    "network 9",
    "network 10",
    "network 12",
    "network 20",
    "network 21",
    "network 22",
    "network 01",
    "network 02",
    "network 002",
    "network -2",
    "network +2",
    "network 2.0",
    "network 2x",
    "network two",
    "network ",
    "network",
    "network  2",
    "network  1",
    "network 1 ",
    "network 2 ",
    "network 2 1",
    "network 2 2",
    "network 1 2",
    "Network 2",
    "NETWORK 2",
    "networks 2",
    "etwork 2",
    " network 2",
    "~network 2",
    "network~2",
    "network 2~",
    "network ~2",
    "network 2\r",
    "network 2\0",
    "\u{feff}network 2",
    "ranges 1",
    "N a",
    "L a b 4",
    "2",
    "",
];

/// A tree of two sites, and its report.
const TREE: &str = "N a\nN b\nL a b 4\n";
const REPORT: &str = "plan 8 1\nL a b 4 4\nN a a\nN b b\nX a 4 1\nX b 4 1\nP a b 8\n";

/// Lengths of sheets at the limits of both editions.
pub(crate) const LENGTHS: [usize; 8] = [
    16_383, 16_384, 16_385, 20_000, 24_575, 24_576, 24_577, 70_000,
];

/// Lines behind the first: texts between which one byte over and over makes up the length of the sheet, and
/// the refusal that such lines get.
const LONG: [(&str, u8, &str, (u8, u32)); 9] = [
    ("\n", b'\n', "", (2, 2)),
    ("\nN a\nN b\nL a b 4\nL a b ", b'7', "\n", (3, 5)),
    ("\nN a\nN b\nL a b 4\nL a b ", b'7', "", (2, 5)),
    ("\nN a\nN b\nL a b 4\nL a b ", b'7', "x\n", (12, 5)),
    ("\nN a\nN b\nL a b 4\nN ", b'c', "\n", (11, 5)),
    ("\nN a\nN b\nL a b 4\nT ", b'7', "\n", (11, 5)),
    ("\nN a\nN b\nL a b 4\nT ", b'\t', "\n", (10, 5)),
    ("\nN a\nN b\nN a\nN ", b'c', "", (5, 4)),
    ("\nN a\nN b\nL a b 4\nnetwork 2", b'\n', "\n", (2, 5)),
];

/// Calls `see` with sheets under many first lines, of a few bytes and of about as many as an edition has,
/// and what is due of each; returns how many.
///
/// # Errors
///
/// The first that `see` returns.
pub fn every_sheet<Failure>(
    mut see: impl FnMut(&[u8], &Due) -> Result<(), Failure>,
) -> Result<usize, Failure> {
    let mut count = 0;
    for first in FIRST_LINES {
        for (lines, after) in short_lines() {
            let sheet = tabbed(&format!("{first}{lines}"));
            see(&sheet, &due(&sheet, after))?;
            count += 1;
        }
        for length in LENGTHS {
            for (before, byte, behind, (number, line)) in LONG {
                let mut sheet = tabbed(&format!("{first}{before}"));
                sheet.resize(length - behind.len(), byte);
                sheet.extend(tabbed(behind));
                see(&sheet, &due(&sheet, Due::Refused(number, line)))?;
                count += 1;
            }
            // Line 1 itself is so long, ended or not.
            for ending in ["", "\n"] {
                let mut sheet = tabbed(first);
                sheet.resize(length - ending.len(), b'2');
                sheet.extend(tabbed(ending));
                see(&sheet, &due(&sheet, Due::Refused(2, 1)))?;
                count += 1;
            }
        }
    }
    Ok(count)
}

/// A few lines behind the first, also headings once more, and what they get.
fn short_lines() -> [(String, Due); 8] {
    [
        (String::new(), Due::Refused(2, 1)),
        ("\n".to_string(), Due::Refused(8, 0)),
        (format!("\n{TREE}"), Due::Report(tabbed(REPORT))),
        ("\nN a\n".to_string(), Due::Refused(8, 0)),
        (format!("\nnetwork 1\n{TREE}"), Due::Refused(2, 2)),
        (format!("\nnetwork 2\n{TREE}"), Due::Refused(2, 2)),
        (format!("\n{TREE}network 2\n"), Due::Refused(2, 5)),
        (format!("\n{TREE}network 1"), Due::Refused(2, 5)),
    ]
}

/// What is due of a sheet, given what the lines behind its heading get: line 1 tells the edition, by which
/// its bytes are counted, and those of a sheet without a heading by edition 1.
fn due(sheet: &[u8], after: Due) -> Due {
    let edition = Edition::told(sheet);
    let most = edition.unwrap_or(Edition::One).bytes();
    if sheet.is_empty() || sheet.len() > most {
        return Due::Refused(1, 0);
    }
    if edition.is_none() {
        return Due::Refused(2, 1);
    }
    after
}

/// Numbers of sites at the limits of both editions.
const SITES: [usize; 10] = [2, 255, 256, 257, 258, 383, 384, 385, 386, 500];

/// Calls `see` with trees of every shape with about as many sites as an edition has, under both headings,
/// with short names and with the longest, which have marks and reserves too; and with the refusal of each,
/// if it is not accepted. Returns how many.
///
/// # Errors
///
/// The first that `see` returns.
pub fn every_tree<Failure>(
    mut see: impl FnMut(&Network, &[u8], Option<(u8, u32)>) -> Result<(), Failure>,
) -> Result<usize, Failure> {
    let mut count = 0;
    for shape in SHAPES {
        for sites in SITES {
            for mut network in trees(shape, sites) {
                for edition in Edition::ALL {
                    network.edition = edition;
                    let random = &mut Random::new(count as u64);
                    let sheet = network.sheet(Layout::any(random), random);
                    let refusal = if sheet.len() > edition.bytes() {
                        Some((1, 0))
                    } else {
                        site_too_many(&sheet, edition).map(|line| (4, line))
                    };
                    see(&network, &sheet, refusal)?;
                    count += 1;
                }
            }
        }
    }
    Ok(count)
}

/// The trees of one shape and number of sites.
fn trees(shape: Shape, sites: usize) -> [Network; 2] {
    let random = &mut Random::new(sites as u64);
    let plain = Network::random(shape, sites, Sizes::Wide, Names::Counted, random);
    let mut largest = Network::random(shape, sites, Sizes::Large, Names::Long, random);
    largest.mark(random);
    largest.hold_back(random);
    [plain, largest]
}

/// The line with a site more than an edition has.
fn site_too_many(sheet: &[u8], edition: Edition) -> Option<u32> {
    let lines = sheet.split(|&byte| byte == b'\n').zip(1..);
    let mut sites = lines.filter(|(line, _)| line.starts_with(b"N\t") || line.starts_with(b"T\t"));
    sites.nth(edition.sites()).map(|(_, number)| number)
}
