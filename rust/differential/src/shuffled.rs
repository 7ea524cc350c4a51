//! Sheets that hold the same records in other orders: what the reports of each planner must agree in.

use crate::indexed::{self, Different};
use crate::small;
use second::{Judged, Outcome, REPORT_BYTES};
use sheets::plans::report_lines;
use sheets::shuffled::{Agreed, Case, case, every_order, total};
use sheets::{Edition, Network};
use std::time::Instant;

/// With fewer sheets it is left to chance what occurs in them.
const ENOUGH_FOR_SHARES: u64 = 10_000;
/// At least one in this many pairs of sheets must have each of the kinds that are counted.
const LEAST_SHARE: u64 = 8;

/// What occurred in the pairs of sheets.
#[derive(Default)]
struct Tally {
    /// How many have a reserve, have an end inside, are of edition 2, have a trimmed link, and have other pairs in
    /// their reports.
    kinds: [u64; 5],
}

impl Tally {
    fn see(&mut self, network: &Network, seen: Seen) {
        let around = network.around();
        let mut sites = network.marks.iter().zip(&around);
        let kinds = [
            network
                .reserves
                .iter()
                .flatten()
                .any(|&reserve| reserve > 0),
            sites.any(|(&is_marked, links)| is_marked && links.len() > 1),
            network.edition == Edition::Two,
            seen.is_trimmed,
            seen.has_other_pairs,
        ];
        for (count, is_seen) in self.kinds.iter_mut().zip(kinds) {
            *count += u64::from(is_seen);
        }
    }
}

/// What is seen in two reports.
#[derive(Clone, Copy)]
struct Seen {
    is_trimmed: bool,
    has_other_pairs: bool,
}

type Planner = fn(&[u8], &mut [u8]) -> Option<usize>;

/// A planner: what it is, its reports in halves and in whole circuits, and whether it judges a plan to be largest.
struct Planned {
    name: &'static str,
    plan: Planner,
    whole: Planner,
    is_largest: fn(&[u8], &[u8]) -> bool,
}

fn of_second(outcome: Outcome) -> Option<usize> {
    match outcome {
        Outcome::Report { length } => Some(length),
        Outcome::Refused { .. } => None,
    }
}

/// The planners, the second one first: an error planted in it is then found by its own reports.
const PLANNERS: [Planned; 2] = [
    Planned {
        name: "the second planner",
        plan: |sheet, buffer| of_second(second::plan(sheet, buffer)),
        whole: |sheet, buffer| of_second(second::whole(sheet, buffer)),
        is_largest: |sheet, plan| {
            let judged = second::judge(sheet, plan);
            matches!(judged, Judged::Accepted { is_largest, .. } if is_largest)
        },
    },
    Planned {
        name: "the proved planner",
        plan: |sheet, buffer| waderarmoire::plan(sheet, buffer).map(<[u8]>::len).ok(),
        whole: |sheet, buffer| waderarmoire::whole(sheet, buffer).map(<[u8]>::len).ok(),
        is_largest: |sheet, plan| waderarmoire::judge(sheet, plan).is_ok_and(|it| it.is_largest),
    },
];

/// The report of a sheet that must be accepted.
fn report(planner: Planner, sheet: &[u8], buffer: &mut [u8]) -> Result<Vec<u8>, String> {
    let length = planner(sheet, buffer).ok_or("a sheet is refused")?;
    Ok(buffer[..length].to_vec())
}

/// Compares the reports of each planner on two sheets with the same records, and those of the two planners: byte for
/// byte in halves, in their totals in whole circuits.
fn compare(sheets: [&[u8]; 2], buffer: &mut [u8]) -> Result<Seen, String> {
    let mut reports = Vec::new();
    let mut totals = Vec::new();
    for planned in &PLANNERS {
        let told = |what: &str| format!("{}: {what}", planned.name);
        let mut of_both = |planner: Planner| -> Result<[Vec<u8>; 2], String> {
            let [one, other] = sheets;
            let one = report(planner, one, buffer).map_err(|what| told(&what))?;
            let other = report(planner, other, buffer).map_err(|what| told(&what))?;
            Ok([one, other])
        };
        let halves = of_both(planned.plan)?;
        agree(&halves).map_err(|what| told(&what))?;
        let circuits = of_both(planned.whole)?;
        let [one, other] = circuits.each_ref().map(|report| total(report));
        if one.is_none() || one != other {
            return Err(told("the totals in whole circuits differ"));
        }
        let plan = report_lines(&halves[0]);
        if !(planned.is_largest)(sheets[1], &plan) {
            return Err(told(
                "the pairs of one are not the largest plan of the other",
            ));
        }
        totals.push(one);
        reports.push(halves);
    }
    if reports[0] != reports[1] || totals[0] != totals[1] {
        return Err("the two planners differ".to_string());
    }
    let [one, other] = [&reports[0][0], &reports[0][1]];
    Ok(Seen {
        is_trimmed: Agreed::read(one)
            .is_some_and(|it| it.links.values().any(|[usable, trimmed]| trimmed < usable)),
        has_other_pairs: pairs(one) != pairs(other),
    })
}

/// The lines of the pairs of a report, names in capitals and ascending, in ascending order.
fn pairs(report: &[u8]) -> Vec<Vec<u8>> {
    let lines = report_lines(report).to_ascii_uppercase();
    let mut pairs: Vec<Vec<u8>> = lines
        .split(|&byte| byte == b'\n')
        .map(|line| {
            let mut fields: Vec<&[u8]> = line.split(|&byte| byte == b'\t').collect();
            if let [_, one, other, _] = &mut fields[..]
                && *one > *other
            {
                std::mem::swap(one, other);
            }
            fields.join(&b'\t')
        })
        .collect();
    pairs.sort_unstable();
    pairs
}

/// Whether two reports agree in all that does not go by the order of the lines.
fn agree(reports: &[Vec<u8>; 2]) -> Result<(), String> {
    let [Some(one), Some(other)] = reports.each_ref().map(|report| Agreed::read(report)) else {
        return Err("a report cannot be read back".to_string());
    };
    for (what, is_alike) in [
        ("totals", one.total == other.total),
        ("trimmed sizes", one.links == other.links),
        ("end sets", one.owners == other.owners),
        ("sizes or counts of sets", one.sets == other.sets),
    ] {
        if !is_alike {
            return Err(format!("the {what} differ"));
        }
    }
    Ok(())
}

fn different(sheets: [&[u8]; 2], what: String) -> Different {
    Different {
        sheet: sheets[0].to_vec(),
        other: ("sheet2", sheets[1].to_vec()),
        what,
    }
}

/// Both planners on all trees of 2 to 4 sites with sizes 0 to 2 and all sets of marked joints, with their sites in all
/// orders.
pub fn small() -> Result<(), Different> {
    let start = Instant::now();
    let mut buffer = vec![0; REPORT_BYTES];
    let mut count = 0;
    let mut found = None;
    let compared = small::every_marked_tree(|network, sheet| {
        for other in every_order(network) {
            count += 1;
            if let Err(what) = compare([sheet, &other], &mut buffer) {
                found = Some(different([sheet, &other], what.clone()));
                return Err(what);
            }
        }
        Ok(())
    });
    if let (Err(_), Some(different)) = (compared, found) {
        return Err(different);
    }
    println!(
        "shuffled sheets: {count} of all trees of 2 to 4 sites in all orders in {:.1} s",
        start.elapsed().as_secs_f64()
    );
    Ok(())
}

/// Compares the planners on one pair of sheets of a seed.
pub fn compare_one(seed: u64, index: u64) -> Result<(), Different> {
    let mut kept = (vec![0; REPORT_BYTES], Tally::default());
    compare_index(seed, index, &mut kept)
}

fn compare_index(
    seed: u64,
    index: u64,
    (buffer, tally): &mut (Vec<u8>, Tally),
) -> Result<(), Different> {
    let Case { network, sheets } = case(seed, index);
    let sheets = sheets.each_ref().map(|sheet| &sheet[..]);
    let seen = compare(sheets, buffer)
        .map_err(|what| different(sheets, indexed::told("shuffle", seed, index, &what)))?;
    tally.see(&network, seen);
    Ok(())
}

/// Compares the planners on the first `count` pairs of sheets of a seed.
pub fn compare_all(seed: u64, count: u64) -> Result<(), Different> {
    let start = Instant::now();
    let new = || (vec![0; REPORT_BYTES], Tally::default());
    let kept = indexed::compare_all([seed, count], "shuffle", new, |kept, index| {
        compare_index(seed, index, kept)
    })?;
    let mut kinds = [0; 5];
    for (_, tally) in &kept {
        for (kind, more) in kinds.iter_mut().zip(tally.kinds) {
            *kind += more;
        }
    }
    println!(
        "  {count} pairs of seed {seed} in {:.1} s; reserves, ends inside, edition 2, links trimmed, other pairs in \
         the reports: {kinds:?}",
        start.elapsed().as_secs_f64()
    );
    if count >= ENOUGH_FOR_SHARES && kinds.iter().any(|&kind| kind < count / LEAST_SHARE) {
        let what = "too few shuffled sheets of one of the kinds".to_string();
        return Err(different([b"", b""], what));
    }
    Ok(())
}
