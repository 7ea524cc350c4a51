//! Random plans drawn by hand, over random trees.
//!
//! Most start from a plan with the largest total, or one near it, and are then changed a little; others have
//! faults of every kind, or are at the limits.

use crate::drawn::{PLAN_BYTES, PLAN_LINES};
use crate::ledger::{AMOUNT, lines};
use crate::logs::{Writer, all_pairs, every_small_text, short_names, tree, wear};
use crate::{Edition, Layout, Names, Network, Random, SITES, Shape, Sizes, join_lines};
use std::collections::HashSet;

/// A sheet that is accepted, the tree it tells, and a plan.
#[derive(Clone, Debug)]
pub struct Case {
    /// The tree.
    pub network: Network,
    /// Its sheet.
    pub sheet: Vec<u8>,
    /// The plan.
    pub plan: Vec<u8>,
}

/// The case with an index among those of a seed, and what else is to be drawn for it, given a planner that
/// writes the report headed `plan` of a sheet.
pub fn case(seed: u64, index: u64, planner: impl FnOnce(&[u8]) -> Vec<u8>) -> (Case, Random) {
    let start = Random::new(seed).bits() ^ index.wrapping_mul(0xa24b_aed4_963e_e407);
    let mut random = Random::new(start);
    let kind = random.below(64);
    let mut network = match kind {
        0 => crowd(&mut random),
        _ => tree(&mut random),
    };
    if random.once_in(4) {
        network.edition = Edition::Two;
    }
    let sheet = network.sheet(Layout::any(&mut random), &mut random);
    let plan = match kind {
        0 => many_lines(&network, &mut random),
        1 | 2 => many_bytes(&network, &mut random),
        3..=9 => filled(&network, &mut random),
        10..=13 => any_pairs(&network, &mut random),
        _ => report_lines(&planner(&sheet)),
    };
    let plan = if kind > 2 {
        changed(&network, &plan, &mut random)
    } else {
        plan
    };
    let case = Case {
        network,
        sheet,
        plan,
    };
    (case, random)
}

/// The lines of a report that give its pairs.
#[must_use]
pub fn report_lines(report: &[u8]) -> Vec<u8> {
    let lines = report.split_inclusive(|&byte| byte == b'\n');
    let pairs: Vec<&[u8]> = lines.filter(|line| line.starts_with(b"P\t")).collect();
    pairs.concat()
}

/// The lines of a log as those of a plan: its letters are `P`, and what was `P` is a wrong letter.
fn as_plan(log: &[u8]) -> Vec<u8> {
    let mut plan = log.to_vec();
    let mut starts_line = true;
    for place in 0..plan.len() {
        let is_alone = matches!(plan.get(place + 1), None | Some(b'\t' | b'\n'));
        plan[place] = match plan[place] {
            b'+' | b'-' if starts_line && is_alone => b'P',
            b'P' if starts_line && is_alone => b'+',
            byte => byte,
        };
        starts_line = plan[place] == b'\n';
    }
    plan
}

/// Pairs in any order, each given what its links still let through, or less now and then.
fn filled(network: &Network, random: &mut Random) -> Vec<u8> {
    let mut writer = Writer::new(network, random);
    let mut pairs = HashSet::new();
    let tries = writer.random.between(1, 40);
    let less = *writer.random.pick(&[2, 4, 100, 100]);
    for _ in 0..tries {
        let sites = writer.two_ends();
        let room = writer.ledger.room(sites);
        if room > 0 && writer.ledger.is_free(sites) && pairs.insert(sites) {
            let is_less = writer.random.once_in(less);
            let halves = if is_less {
                writer.random.between(1, room as usize) as u64
            } else {
                room
            };
            writer.ask(b"+", sites, halves.min(AMOUNT));
        }
    }
    as_plan(&writer.log)
}

/// Any pairs with any amounts, mostly small ones.
fn any_pairs(network: &Network, random: &mut Random) -> Vec<u8> {
    let mut writer = Writer::new(network, random);
    for _ in 0..writer.random.between(0, 8) {
        let sites = writer.two_ends();
        let halves = *writer.random.pick(&[1, 1, 2, 3, 10, AMOUNT]);
        writer.ask(b"+", sites, halves);
    }
    as_plan(&writer.log)
}

/// A tree with more pairs of ends than a plan may have lines.
fn crowd(random: &mut Random) -> Network {
    let shape = *random.pick(&[Shape::Star, Shape::Broom, Shape::Attached, Shape::Binary]);
    let sites = random.between(160, SITES);
    let names = *random.pick(&[Names::Counted, Names::Any, Names::Long]);
    let mut network = Network::random(shape, sites, Sizes::Large, names, random);
    if random.once_in(3) {
        let site = random.below(sites);
        network.marks[site] = true;
    }
    network
}

/// About 1,024 pairs, each of them free but now and then.
fn many_lines(network: &Network, random: &mut Random) -> Vec<u8> {
    let mut writer = Writer::new(network, random);
    let mut pairs = all_pairs(&writer.ends);
    writer.random.shuffle(&mut pairs);
    pairs.truncate(4 * PLAN_LINES);
    pairs.retain(|&pair| writer.ledger.is_free(pair));
    let count = *writer
        .random
        .pick(&[PLAN_LINES, PLAN_LINES, PLAN_LINES + 1, PLAN_LINES - 1]);
    let most = *writer.random.pick(&[1, 1_000, 1_000, 100_000]);
    let mut lines: Vec<Vec<u8>> = Vec::new();
    for &pair in pairs.iter().take(count) {
        let [first, second] = pair.map(|site| writer.name(site));
        let halves = writer.random.between(1, most).to_string();
        lines.push([b"P", &first[..], &second, halves.as_bytes()].join(&b'\t'));
    }
    match random.below(6) {
        0 => _ = lines.pop(),
        1 => lines.insert(random.below(lines.len()), b"P".to_vec()),
        2 => lines.push(lines[random.below(lines.len())].clone()),
        _ => (),
    }
    let mut plan = join_lines(&lines);
    match random.below(8) {
        0 => _ = plan.pop(),
        1 => plan.push(b'P'),
        _ => (),
    }
    plan
}

/// A plan of about 65,536 bytes or about 1,024 lines, most of which are no pairs.
fn many_bytes(network: &Network, random: &mut Random) -> Vec<u8> {
    let mut plan = filled(network, random);
    let over = *random.pick(&[0, 0, 1, 1, 2, 500]);
    if random.once_in(2) {
        // Few long lines: a last one, or an amount with very many digits.
        let filler = *random.pick(b"9a\tP0");
        let start: &[u8] = random.pick::<&[u8]>(&[b"", b"P\t", b"P\ta\tb\t9"]);
        plan.extend_from_slice(start);
        plan.resize(PLAN_BYTES - 1 + over, filler);
        plan.push(*random.pick(b"\n\n9"));
    } else {
        let ended = lines(&plan).count();
        plan.extend([b'\n'].repeat(PLAN_LINES + over - ended));
        match random.below(3) {
            0 => plan.push(b'P'),
            1 => _ = plan.pop(),
            _ => (),
        }
    }
    plan
}

/// What a line of a plan says.
#[derive(Clone)]
struct Entry {
    names: [Vec<u8>; 2],
    halves: u64,
}

impl Entry {
    fn read(line: &[u8]) -> Option<Self> {
        let fields: Vec<&[u8]> = line.split(|&byte| byte == b'\t').collect();
        let [_, first, second, halves] = fields[..] else {
            return None;
        };
        Some(Entry {
            names: [first.to_vec(), second.to_vec()],
            halves: std::str::from_utf8(halves).ok()?.parse().ok()?,
        })
    }

    fn line(&self) -> Vec<u8> {
        let halves = self.halves.to_string();
        let [first, second] = &self.names;
        [b"P", &first[..], second, halves.as_bytes()].join(&b'\t')
    }
}

/// A plan with a change or two, or none.
fn changed(network: &Network, plan: &[u8], random: &mut Random) -> Vec<u8> {
    let read = |(line, _): (&[u8], bool)| Entry::read(line);
    let mut entries: Vec<Entry> = lines(plan).filter_map(read).collect();
    if random.once_in(3) {
        random.shuffle(&mut entries);
    }
    for _ in 0..*random.pick(&[0, 1, 1, 1, 2, 3]) {
        change(&mut entries, network, random);
    }
    let mut lines: Vec<Vec<u8>> = entries.iter().map(Entry::line).collect();
    if random.once_in(8) {
        for _ in 0..random.between(1, 3) {
            let mut writer = Writer::new(network, random);
            writer.piece();
            let mut line = as_plan(&writer.log);
            line.pop();
            lines.insert(random.below(lines.len() + 1), line);
        }
    }
    let mut plan = join_lines(&lines);
    if random.once_in(6) {
        wear(&mut plan, random);
    }
    plan
}

/// Changes a plan in one of many ways, as far as it has lines for it.
fn change(entries: &mut Vec<Entry>, network: &Network, random: &mut Random) {
    let kind = random.below(14);
    if entries.is_empty() || kind == 0 {
        entries.insert(random.below(entries.len() + 1), some_entry(network, random));
        return;
    }
    let one = random.below(entries.len());
    let other = random.below(entries.len());
    match kind {
        // Less for a pair: nothing is left out, or is told as an amount of 0.
        1 | 2 => {
            entries[one].halves -= 1;
            if entries[one].halves == 0 && !random.once_in(4) {
                entries.remove(one);
            }
        }
        3 => entries[one].halves += 1,
        4 => entries[one].names.swap(0, 1),
        // A pair twice, the second time with any amount.
        5 => {
            let mut again = entries[one].clone();
            random.shuffle(&mut again.names);
            again.halves = *random.pick(&[1, again.halves, 0, AMOUNT + 1]);
            entries.insert(random.between(one, entries.len()), again);
        }
        6 => _ = entries.remove(one),
        7..=9 if one != other => cross(entries, [one, other], random),
        // From one pair to another.
        10 if entries[one].halves > 1 => {
            entries[one].halves -= 1;
            entries[other].halves += 1;
        }
        11 => entries[one].halves = *random.pick(&[0, AMOUNT, AMOUNT + 1, u64::MAX]),
        12 => {
            let name = &mut entries[one].names[random.below(2)];
            name.make_ascii_uppercase();
        }
        _ => {
            let site = random.below(network.names.len());
            entries[one].names[0].clone_from(&network.names[site]);
        }
    }
}

/// Two sites, mostly ends, with any amount; at times with another end between them.
fn some_entry(network: &Network, random: &mut Random) -> Entry {
    let mut writer = Writer::new(network, random);
    let sites = if writer.random.once_in(3) {
        let ends = &writer.ends;
        let mut pairs = all_pairs(&ends[..ends.len().min(40)]);
        pairs.retain(|&pair| !writer.ledger.is_free(pair));
        pairs.first().copied().unwrap_or(writer.two_ends())
    } else {
        writer.two_ends()
    };
    let names = sites.map(|site| writer.name(site));
    let halves = *writer.random.pick(&[1, 1, 2, AMOUNT]);
    Entry { names, halves }
}

/// Takes the same amount from two pairs and gives it to the two that exchange an end: the total stays.
fn cross(entries: &mut Vec<Entry>, [one, other]: [usize; 2], random: &mut Random) {
    let most = entries[one].halves.min(entries[other].halves);
    let halves = *random.pick(&[1, most, most / 2]);
    let halves = halves.min(most);
    if halves == 0 {
        return;
    }
    let [[first, second], [third, fourth]] = [one, other].map(|it| entries[it].names.clone());
    for names in [[first, third], [second, fourth]] {
        let is_same = |it: &&mut Entry| {
            let [one, other] = &it.names;
            it.names == names || [other, one] == [&names[0], &names[1]]
        };
        let found = entries.iter_mut().find(is_same);
        if let Some(entry) = found {
            entry.halves += halves;
        } else {
            entries.push(Entry { names, halves });
        }
    }
    for place in [one, other] {
        entries[place].halves -= halves;
    }
    entries.retain(|entry| entry.halves > 0);
}

/// The lines that small plans have.
const LINES: [&str; 17] = [
    "P a b 1",
    "P b a 2",
    "P A C 1",
    "P c a 2",
    "P c B 1",
    "P a b 4",
    "P a h 1",
    "P a A 1",
    "P h zz 0",
    "P a b 0",
    "P a b 2000001",
    "P a b 01",
    "P 40 b 01",
    "P a-b h 01",
    "P a b",
    "+ a b 1",
    "",
];

/// The sheets and plans of a small exhaustive comparison: all plans of at most `most` lines out of a short
/// list, each with its last line ended and not, over a few trees.
///
/// # Errors
///
/// The first that `see` returns.
pub fn every_small_plan<Failure>(
    most: usize,
    mut see: impl FnMut(&Case) -> Result<(), Failure>,
) -> Result<usize, Failure> {
    every_small_text(&LINES, most, |case| {
        see(&Case {
            network: case.network.clone(),
            sheet: case.sheet.clone(),
            plan: case.log.clone(),
        })
    })
}

/// A plan of 1,024 lines that fits, over a tree of a shape with so many sites and short names, if the tree has so
/// many pairs of ends.
#[must_use]
pub fn longest_plan(shape: Shape, sites: usize, random: &mut Random) -> Option<Case> {
    let mut network = Network::random(shape, sites, Sizes::Large, Names::Counted, random);
    short_names(&mut network);
    let ends: Vec<usize> = (0..sites).filter(|&site| network.is_end(site)).collect();
    let mut pairs = all_pairs(&ends);
    random.shuffle(&mut pairs);
    if pairs.len() < PLAN_LINES {
        return None;
    }
    let line = |pair: &[usize; 2]| {
        let names = pair.map(|site| network.names[site].clone());
        let halves = random.between(1, 1_900) as u64;
        Entry { names, halves }.line()
    };
    let plan: Vec<Vec<u8>> = pairs[..PLAN_LINES].iter().map(line).collect();
    let sheet = network.sheet(Layout::Mixed, random);
    Some(Case {
        network,
        sheet,
        plan: join_lines(&plan),
    })
}
