//! The sheets of the scope document, and all small trees.

use crate::card::Checked;
use crate::compare::{Answer, LIST_PLACES, Planners};
use crate::exact::{self, Fraction};
use crate::{Failure, circuits, demands, editions, inward, marks, search, usable};
use second::REPORT_BYTES;
use sheets::bare;
use sheets::cases::{self, Due};
use sheets::{Edition, Layout, Names, Network, Random, SHAPES, Sizes, Spelling};
use sheets::{headings, marks as site_lines, order, prufer_links, reserve, tried, whole};
use std::collections::HashSet;
use std::ops::RangeInclusive;
use std::time::Instant;

/// Both planners on the sheets of the scope document, against answers written by hand.
pub fn tried_sheets() -> Result<(), Failure> {
    let mut planners = Planners::new();
    for tried in &tried::ACCEPTED {
        let report = tried.report();
        for length in [REPORT_BYTES, report.len(), report.len() - 1, 0] {
            let answer = planners.plan(&tried.sheet(), length);
            let is_right = match answer {
                Ok(Answer::Report(answer)) => answer == report && length >= report.len(),
                Ok(Answer::Refused(9, 0)) => length < report.len(),
                _ => false,
            };
            if !is_right {
                let what = format!("{}, buffer of {length} bytes: {answer:?}", tried.title);
                return Err(failure(&tried.sheet(), what));
            }
        }
        editions::compare(&mut planners, &tried.sheet())
            .map_err(|what| failure(&tried.sheet(), what))?;
    }
    let refused = tried::refused();
    for tried in &refused {
        let answer = planners.plan(&tried.sheet, REPORT_BYTES);
        if !matches!(answer, Ok(Answer::Refused(number, line))
            if (number, line) == (tried.number, tried.line))
        {
            let what = format!("{}: {answer:?}", tried.title);
            return Err(failure(&tried.sheet, what));
        }
        editions::compare(&mut planners, &tried.sheet)
            .map_err(|what| failure(&tried.sheet, what))?;
    }
    println!(
        "sheets to try: {} reports and {} refusals as written by hand",
        tried::ACCEPTED.len(),
        refused.len()
    );
    tried_in_circuits(&mut planners)
}

/// Both planners in whole circuits, against totals and numbers of odd pieces written by hand.
fn tried_in_circuits(planners: &mut Planners) -> Result<(), Failure> {
    for tried in &whole::TRIED {
        let sheet = tried.sheet();
        let answer = circuits::accepted(planners, &sheet);
        let is_right = answer.map(|(report, _)| tried.agrees(report));
        if is_right != Ok(true) {
            let what = format!("whole, {}: {is_right:?}", tried.title);
            return Err(failure(&sheet, what));
        }
    }
    println!("  whole: {} totals as written by hand", whole::TRIED.len());
    tried_orders(planners)
}

/// The orders of work of both planners, against those written by hand.
fn tried_orders(planners: &mut Planners) -> Result<(), Failure> {
    for tried in &order::TRIED {
        let sites = tried.order.len();
        for places in [LIST_PLACES, sites, sites - 1, 0] {
            let answer = planners.order(&tried.sheet(), places);
            let is_right = match answer {
                Ok(Answer::Report(order)) => order == tried.order && places >= sites,
                Ok(Answer::Refused(9, 0)) => places < sites,
                _ => false,
            };
            if !is_right {
                let what = format!("order, {}, {places} places: {answer:?}", tried.title);
                return Err(failure(&tried.sheet(), what));
            }
        }
    }
    println!("  order: {} lists as written by hand", order::TRIED.len());
    Ok(())
}

/// Both planners on small sheets with names in either case, of two sites and a link each, against
/// what is due by the words of the card.
pub fn names_in_either_case() -> Result<(), Failure> {
    let mut planners = Planners::with_room(ROOM);
    let count = cases::every_sheet(|sheet, due| of_both(&mut planners, sheet, due))?;
    println!(
        "names in either case: {count} sheets of two sites of both editions, answers by the words of the card"
    );
    Ok(())
}

/// Both planners on small sheets with reserves, of two sites and a link line each, against what is due
/// by the words of the card.
pub fn reserves() -> Result<(), Failure> {
    let mut planners = Planners::with_room(ROOM);
    let count = reserve::every_sheet(|sheet, due| of_both(&mut planners, sheet, due))?;
    println!(
        "reserves: {count} sheets of two sites of both editions, answers by the words of the card"
    );
    Ok(())
}

/// Both planners on small sheets with site lines of either letter, against what is due by the words of
/// the card.
pub fn site_lines() -> Result<(), Failure> {
    let mut planners = Planners::with_room(ROOM);
    let count = site_lines::every_sheet(|sheet, due| of_both(&mut planners, sheet, due))?;
    println!(
        "marks: {count} sheets of two sites of both editions, answers by the words of the card"
    );
    Ok(())
}

/// Both planners on small sheets with bare numbers and other texts in the place of names, against what is due by
/// the words of the card.
pub fn bare_numbers() -> Result<(), Failure> {
    let start = Instant::now();
    let mut planners = Planners::with_room(ROOM);
    let count = bare::every_sheet(|sheet, due| of_both(&mut planners, sheet, due))?;
    println!(
        "bare numbers: {count} sheets of two sites of both editions in {:.1} s, answers by the words of the card",
        start.elapsed().as_secs_f64()
    );
    Ok(())
}

/// Both planners on sheets at the limits of both editions, under many first lines and of many lengths, and
/// on trees with about as many sites as an edition has, against what is due by the words of the card.
pub fn headings() -> Result<(), Failure> {
    let start = Instant::now();
    let mut planners = Planners::new();
    let sheets = headings::every_sheet(|sheet, due| {
        two_sites(&mut planners, sheet, due).map_err(|what| failure(sheet, what))
    })?;
    let mut random = Random::new(1);
    let trees = headings::every_tree(|network, sheet, refusal| {
        let compared = match refusal {
            Some(due) => refused(&mut planners, sheet, due),
            None => large_tree(network, sheet, &mut planners, &mut random),
        };
        compared.map_err(|what| failure(sheet, what))
    })?;
    println!(
        "editions: {sheets} sheets under many first lines and {trees} trees at the limits in {:.1} s, answers by \
         the words of the card",
        start.elapsed().as_secs_f64()
    );
    Ok(())
}

/// Both planners on a tree that must be accepted: both reports, with and without its marks and reserves, and
/// the order of work.
fn large_tree(
    network: &Network,
    sheet: &[u8],
    planners: &mut Planners,
    random: &mut Random,
) -> Result<(), String> {
    accepted(network, sheet, planners, false)?;
    circuits::accepted(planners, sheet)?;
    usable::compare(planners, sheet)?;
    marks::compare(planners, sheet)?;
    inward::accepted(planners, sheet, random)
}

/// Both planners on a sheet of two sites, and on the same under the heading of edition 2.
fn of_both(planners: &mut Planners, sheet: &[u8], due: &Due) -> Result<(), Failure> {
    two_sites(planners, sheet, due).map_err(|what| failure(sheet, what))?;
    let second = Edition::Two.head(sheet).expect("it has a heading");
    two_sites(planners, &second, due).map_err(|what| failure(&second, what))
}

/// Both planners on a sheet of two sites, with what is due of it.
fn two_sites(planners: &mut Planners, sheet: &[u8], due: &Due) -> Result<(), String> {
    let report = match due {
        Due::Report(report) => report,
        Due::Refused(number, line) => return refused(planners, sheet, (*number, *line)),
    };
    match planners.plan(sheet, planners.room())? {
        Answer::Report(answer) if answer == report => (),
        answer => {
            return Err(format!(
                "both planners answer {answer:?} where {due:?} is due"
            ));
        }
    }
    demands::check(sheet, report)?;
    let (whole, _) = circuits::accepted(planners, sheet)?;
    if Due::Report(whole.to_vec()) != due.in_whole_circuits() {
        return Err("whole: another report is due of two sites".to_string());
    }
    inward::compare(planners, sheet, Answer::Report(2), LIST_PLACES)
}

/// Both planners on a sheet that must be refused.
fn refused(planners: &mut Planners, sheet: &[u8], due: (u8, u32)) -> Result<(), String> {
    match planners.plan(sheet, planners.room())? {
        Answer::Refused(number, line) if (number, line) == due => (),
        answer => {
            return Err(format!(
                "both planners answer {answer:?} where {due:?} is due"
            ));
        }
    }
    match planners.whole(sheet, planners.room())? {
        Answer::Refused(number, line) if (number, line) == due => (),
        answer => {
            return Err(format!(
                "whole: the answer is {answer:?} where {due:?} is due"
            ));
        }
    }
    inward::compare(planners, sheet, Answer::Refused(due.0, due.1), LIST_PLACES)
}

/// Both planners on all trees of 2 to 5 sites: in halves with sizes 0 to 2, in whole circuits with
/// sizes 0 to 3; and in whole circuits on some of 6 to 8 sites.
pub fn small_trees() -> Result<(), Failure> {
    let mut planners = Planners::new();
    let counts = every_tree(2..=5, 3, Marks::None, Share::Whole, |network, sheet| {
        accepted(network, sheet, &mut planners, true)?;
        inward::accepted_small(&mut planners, sheet)
    })?;
    assert_eq!(counts, [3, 27, 432, 10_125]);
    println!("small trees: 3, 27, 432 and 10,125 sheets, totals found by linear programming");
    println!("  order: the same sheets, trimmed sizes found along every order");

    let counts = every_tree(2..=5, 4, Marks::None, Share::Whole, |network, sheet| {
        largest_whole(network, sheet, &mut planners)
    })?;
    assert_eq!(counts, [4, 48, 1_024, 32_000]);
    let mut random = Random::new(1);
    for _ in 0..LARGER_TREES {
        let shape = *random.pick(&SHAPES);
        let sites = random.between(6, 8);
        let mut network = Network::random(shape, sites, Sizes::Small, Names::Counted, &mut random);
        for size in &mut network.sizes {
            *size %= 4;
        }
        let sheet = network.sheet(Layout::Mixed, &mut random);
        largest_whole(&network, &sheet, &mut planners).map_err(|what| failure(&sheet, what))?;
    }
    println!(
        "  whole: 4, 48, 1,024 and 32,000 sheets and {LARGER_TREES} of 6 to 8 sites, \
         totals found by trying all plans"
    );
    Ok(())
}

/// Both planners on all trees of 2 to 5 sites with all sets of marks and sizes 0 to 2, in halves and in
/// whole circuits, and their order of work.
pub fn marked_trees() -> Result<(), Failure> {
    let start = Instant::now();
    let share = |share: Share| {
        let mut planners = Planners::with_room(ROOM);
        let mut random = Random::new(1);
        every_tree(2..=5, 3, Marks::All, share, |network, sheet| {
            accepted(network, sheet, &mut planners, true)?;
            largest_whole(network, sheet, &mut planners)?;
            marks::compare(&mut planners, sheet)?;
            inward::accepted(&mut planners, sheet, &mut random)
        })
    };
    let counts = std::thread::scope(|scope| {
        let other = scope.spawn(|| share(Share::Odd));
        let counts = share(Share::Even)?;
        let others = other.join().expect("no thread panics")?;
        let both = counts.iter().zip(others);
        Ok(both.map(|(one, other)| one + other).collect::<Vec<_>>())
    })?;
    assert_eq!(counts, [4 * 3, 8 * 27, 16 * 432, 32 * 10_125]);
    println!(
        "marked trees: 12, 216, 6,912 and 324,000 sheets in {:.1} s, totals found by linear programming and, \
         whole, by trying all plans",
        start.elapsed().as_secs_f64()
    );
    Ok(())
}

/// A buffer of so many bytes is enough for a report of five sites.
const ROOM: usize = 1_024;

/// How many trees of 6 to 8 sites are compared in whole circuits.
const LARGER_TREES: usize = 20_000;

fn failure(sheet: &[u8], what: String) -> Failure {
    Failure {
        sheet: Some(sheet.to_vec()),
        index: None,
        what,
    }
}

/// The sets of marks that a tree is taken with.
#[derive(Clone, Copy, PartialEq, Eq)]
enum Marks {
    None,
    All,
}

/// The trees that are taken: all, or every second one.
#[derive(Clone, Copy, PartialEq, Eq)]
enum Share {
    Whole,
    Even,
    Odd,
}

impl Share {
    fn has(self, tree: u64) -> bool {
        match self {
            Share::Whole => true,
            Share::Even => tree.is_multiple_of(2),
            Share::Odd => !tree.is_multiple_of(2),
        }
    }
}

/// Calls `see` with all trees of 2 to 4 sites with sizes 0 to 2 and all sets of marked joints.
pub fn every_marked_tree(
    mut see: impl FnMut(&Network, &[u8]) -> Result<(), String>,
) -> Result<(), Failure> {
    every_tree(2..=4, 3, Marks::All, Share::Whole, |network, sheet| {
        // A marked site with one link is an end as it is without its mark.
        let around = network.around();
        let mut sites = network.marks.iter().zip(&around);
        if sites.any(|(&is_marked, links)| is_marked && links.len() == 1) {
            return Ok(());
        }
        see(network, sheet)
    })?;
    Ok(())
}

/// Calls `see` with all trees of some numbers of sites whose sizes are below `sizes`, with the sets of marks that
/// are told, as far as a share has them, and returns how many there are of each number of sites.
fn every_tree(
    site_counts: RangeInclusive<u32>,
    sizes: usize,
    marks: Marks,
    share: Share,
    mut see: impl FnMut(&Network, &[u8]) -> Result<(), String>,
) -> Result<Vec<usize>, Failure> {
    let mut counts = Vec::new();
    for sites in site_counts {
        let trees = u64::from(sites).pow(sites - 2);
        let sizings = (sizes as u64).pow(sites - 1);
        let markings = if marks == Marks::All { 1 << sites } else { 1 };
        let mut different = HashSet::new();
        for tree in (0..trees).filter(|&tree| share.has(tree)) {
            let sequence = digits(tree, sites as usize, sites as usize - 2);
            let links = prufer_links(&sequence);
            for number in 0..sizings * markings {
                let (sizing, marking) = (number / markings, number % markings);
                let network = Network {
                    edition: Edition::ALL[sizing as usize % 2],
                    names: (1..=sites).map(|site| format!("s{site}").into()).collect(),
                    marks: (0..sites).map(|site| marking >> site & 1 == 1).collect(),
                    links: links.clone(),
                    sizes: digits(sizing, sizes, links.len())
                        .iter()
                        .map(|&size| size as u32)
                        .collect(),
                    reserves: vec![None; links.len()],
                    spelling: Spelling::AsGiven,
                };
                let sheet = network.sheet(Layout::SitesFirst, &mut Random::new(0));
                see(&network, &sheet).map_err(|what| failure(&sheet, what))?;
                different.insert((network.sized_links(), marking));
            }
        }
        counts.push(different.len());
    }
    Ok(counts)
}

/// Compares the planners in whole circuits on a tree, and their total with the largest of all
/// plans.
fn largest_whole(network: &Network, sheet: &[u8], planners: &mut Planners) -> Result<(), String> {
    let (_, Checked { total, .. }) = circuits::accepted(planners, sheet)?;
    let largest = u64::from(2 * search::largest_total(network));
    if total != largest {
        return Err(format!(
            "whole: {total} halves are planned where {largest} is largest"
        ));
    }
    Ok(())
}

/// The last `count` digits of a number to a base, the lowest first.
fn digits(mut number: u64, base: usize, count: usize) -> Vec<usize> {
    (0..count)
        .map(|_| {
            let digit = number % base as u64;
            number /= base as u64;
            digit as usize
        })
        .collect()
}

/// Compares the planners on a sheet that must be accepted, and checks the report; its total too,
/// if `solve` says so. Returns the length of the report.
pub fn accepted(
    network: &Network,
    sheet: &[u8],
    planners: &mut Planners,
    solve: bool,
) -> Result<usize, String> {
    let report = match planners.plan(sheet, planners.room())? {
        Answer::Report(report) => report,
        Answer::Refused(number, line) => {
            return Err(format!(
                "both planners refuse a tree: {number} at line {line}"
            ));
        }
    };
    let total = demands::check(sheet, report)?;
    if solve {
        let greatest = exact::greatest_total(network);
        if greatest + greatest != Fraction::whole(total) {
            return Err(format!(
                "{total} halves are planned where {greatest:?} is greatest"
            ));
        }
    }
    Ok(report.len())
}
