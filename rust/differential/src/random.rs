//! Random trees and damaged sheets, compared by two threads.

use crate::compare::{Answer, LIST_PLACES, Planners};
use crate::damage::{self, Damaged};
use crate::printed;
use crate::small::accepted;
use crate::tally::{SECOND_SHARE, Tally};
use crate::{Failure, bare, circuits, demands, editions, inward, marks, spelling, usable};
use second::REPORT_BYTES;
use sheets::{Edition, Layout, Network, Random, SITES};
use std::cell::Cell;
use std::sync::Mutex;
use std::sync::atomic::{AtomicU64, Ordering};
use std::time::Instant;

/// The threads that compare.
const THREADS: usize = 2;
/// So many sheets are handed to a thread at once.
const BLOCK: u64 = 64;
thread_local! {
    /// The index of the sheet a thread compares.
    static CURRENT: Cell<Option<u64>> = const { Cell::new(None) };
}

/// A random sheet, and what is known of it.
struct Case {
    sheet: Vec<u8>,
    kind: Kind,
    /// For what else is drawn in the comparison.
    random: Random,
}

enum Kind {
    Tree(Network),
    Damaged(Option<(u8, u32)>),
}

impl Case {
    /// The sheet with an index among those of a seed.
    fn new(seed: u64, index: u64) -> Self {
        let start = Random::new(seed).bits() ^ index.wrapping_mul(0xd134_2543_de82_ef95);
        let mut random = Random::new(start);
        let is_second = index % SECOND_SHARE == SECOND_SHARE - 1;
        let edition = Edition::ALL[usize::from(is_second)];
        let (sheet, kind) = if random.below(8) < 3 {
            let network = tree(edition, &mut random);
            let sheet = network.sheet(Layout::any(&mut random), &mut random);
            (sheet, Kind::Tree(network))
        } else {
            let Damaged { sheet, refusal } = damage::damaged(edition, &mut random);
            (sheet, Kind::Damaged(refusal))
        };
        Case {
            sheet,
            kind,
            random,
        }
    }

    fn check(&mut self, planners: &mut Planners, tally: &mut Tally) -> Result<(), String> {
        match &self.kind {
            Kind::Tree(network) => {
                let solve = network.names.len() <= 7 && self.random.once_in(4);
                let length = accepted(network, &self.sheet, planners, solve)?;
                let (whole, checked) = circuits::accepted(planners, &self.sheet)?;
                let whole = whole.to_vec();
                tally.odd += u64::from(checked.odd_pieces > 0);
                tally.reserved += u64::from(usable::compare(planners, &self.sheet)?);
                tally.marked += u64::from(marks::compare(planners, &self.sheet)?);
                bare::check(&self.sheet, None)?;
                tally.outcomes[0] += 1;
                tally.spelt[0] += u64::from(spelling::matters(&self.sheet, None));
                tally.solved += u64::from(solve);
                let sites = network.names.len();
                tally.see_edition(&self.sheet, 0);
                if self.random.once_in(4) {
                    tally.turned += u64::from(editions::compare(planners, &self.sheet)?);
                }
                self.check_order(sites, planners, tally)?;
                if self.random.once_in(8) {
                    tally.outcomes[9] += 1;
                    self.check_buffers(length, planners)?;
                    for length in self.buffer_lengths(whole.len()) {
                        self.check_whole_buffer(&whole, length, planners)?;
                    }
                }
                Ok(())
            }
            Kind::Damaged(refusal) => {
                let refusal = *refusal;
                self.check_damaged(refusal, planners, tally)
            }
        }
    }

    /// Compares the orders of work of a tree, with lists of many lengths, and checks some.
    fn check_order(
        &mut self,
        sites: usize,
        planners: &mut Planners,
        tally: &mut Tally,
    ) -> Result<(), String> {
        let due = Answer::Report(sites);
        let longer = self.random.between(sites, LIST_PLACES);
        let enough = *self.random.pick(&[sites, sites + 1, longer]);
        inward::compare(planners, &self.sheet, due, enough)?;
        if self.random.once_in(8) {
            let shorter = self.random.below(sites);
            for places in [0, shorter, sites - 1, sites, sites + 1, LIST_PLACES] {
                inward::compare(planners, &self.sheet, due, places)?;
            }
        }
        if self.random.once_in(8) {
            tally.ordered += 1;
            inward::accepted(planners, &self.sheet, &mut self.random)?;
        }
        Ok(())
    }

    /// Compares the orders of work of a damaged sheet, given what the planners answer in halves.
    fn check_damaged_order(
        &mut self,
        refusal: Option<(u8, u32)>,
        planners: &mut Planners,
    ) -> Result<(), String> {
        let due = match refusal {
            Some((number, line)) if number != 9 => Answer::Refused(number, line),
            _ => Answer::Report(printed::Network::read(&self.sheet)?.names.len()),
        };
        let few = self.random.below(16);
        let places = *self.random.pick(&[0, few, LIST_PLACES]);
        inward::compare(planners, &self.sheet, due, places)
    }

    /// Lengths of report buffers about as long as a report, and others.
    fn buffer_lengths(&mut self, length: usize) -> impl Iterator<Item = usize> + use<> {
        let near = length - 4..=length + 4;
        let shorter = self.random.below(length);
        let longer = self.random.between(length, REPORT_BYTES);
        near.chain([0, 1, shorter, longer])
    }

    /// Compares the planners with report buffers about as long as the report.
    fn check_buffers(&mut self, length: usize, planners: &mut Planners) -> Result<(), String> {
        for buffer_length in self.buffer_lengths(length) {
            let is_right = match planners.plan(&self.sheet, buffer_length)? {
                Answer::Report(report) => buffer_length >= length && report.len() == length,
                Answer::Refused(number, line) => buffer_length < length && (number, line) == (9, 0),
            };
            if !is_right {
                return Err(format!(
                    "both planners are wrong on a buffer of {buffer_length} bytes"
                ));
            }
        }
        Ok(())
    }

    /// Lets the proved planner write its report in whole circuits into a buffer.
    fn check_whole_buffer(
        &self,
        due: &[u8],
        length: usize,
        planners: &mut Planners,
    ) -> Result<(), String> {
        let is_right = match planners.whole(&self.sheet, length)? {
            Answer::Report(reports) => length >= due.len() && reports.proved == due,
            Answer::Refused(number, line) => length < due.len() && (number, line) == (9, 0),
        };
        if !is_right {
            return Err(format!(
                "whole: the proved planner is wrong on a buffer of {length} bytes"
            ));
        }
        Ok(())
    }

    /// Compares the planners in whole circuits on a sheet, given what they answer in halves.
    fn check_damaged_whole(
        &self,
        refusal: Option<(u8, u32)>,
        length: usize,
        planners: &mut Planners,
    ) -> Result<(), String> {
        let Some(due) = refusal.filter(|&(number, _)| number != 9) else {
            let report = circuits::accepted(planners, &self.sheet)?.0.to_vec();
            usable::compare(planners, &self.sheet)?;
            marks::compare(planners, &self.sheet)?;
            return self.check_whole_buffer(&report, length, planners);
        };
        match planners.whole(&self.sheet, length)? {
            Answer::Refused(number, line) if (number, line) == due => Ok(()),
            answer => Err(format!(
                "whole: the answer is {answer:?} where {due:?} is due"
            )),
        }
    }

    /// The line that a refusal is for, if it is for one.
    fn refused_line(&self, refusal: Option<(u8, u32)>) -> Option<&[u8]> {
        let place = refusal.and_then(|(_, line)| line.checked_sub(1))?;
        let mut lines = self.sheet.split(|&byte| byte == b'\n');
        lines.nth(place as usize)
    }

    fn check_damaged(
        &mut self,
        refusal: Option<(u8, u32)>,
        planners: &mut Planners,
        tally: &mut Tally,
    ) -> Result<(), String> {
        let length = match self.random.below(8) {
            0 => 0,
            1 => self.random.below(400),
            _ => REPORT_BYTES,
        };
        let answer = match planners.plan(&self.sheet, length)? {
            Answer::Report(report) => {
                demands::check(&self.sheet, report)?;
                None
            }
            Answer::Refused(number, line) => Some((number, line)),
        };
        self.check_damaged_whole(answer, length, planners)?;
        self.check_damaged_order(answer, planners)?;
        tally.turned += u64::from(editions::compare(planners, &self.sheet)?);
        tally.see_edition(&self.sheet, answer.map_or(0, |(number, _)| number));
        let outcome = answer.map_or(0, |(number, _)| usize::from(number));
        tally.outcomes[outcome] += 1;
        if let Some(line) = self.refused_line(answer) {
            tally.marked_lines[outcome] += u64::from(line.starts_with(b"T"));
            tally.bare_lines[outcome] += u64::from(bare::is_on(line));
        }
        if let Some(bare) = bare::check(&self.sheet, answer)? {
            tally.bare_names[bare as usize] += 1;
        }
        tally.spelt[outcome] += u64::from(spelling::matters(&self.sheet, answer));
        if refusal.is_some() && answer != refusal {
            return Err(format!(
                "both planners answer {answer:?} where {refusal:?} is due"
            ));
        }
        Ok(())
    }
}

/// A random tree of an edition: of edition 2 some with all sites that it may have, or nearly so.
fn tree(edition: Edition, random: &mut Random) -> Network {
    let mut network = match edition {
        Edition::Two if random.once_in(8) => Network::any_of(SITES - 8..=SITES, random),
        _ => {
            let most = *random.pick(&[7, 7, 16, 16, 32, 64, 128, edition.sites()]);
            Network::any(most, random)
        }
    };
    network.edition = edition;
    network
}

/// Compares the planners on one sheet of a seed, after `keep` has seen it.
pub fn compare_one(seed: u64, index: u64, keep: impl FnOnce(&[u8])) -> Result<(), Failure> {
    let mut case = Case::new(seed, index);
    keep(&case.sheet);
    compare_case(
        &mut case,
        seed,
        index,
        &mut Planners::new(),
        &mut Tally::default(),
    )
}

fn compare_case(
    case: &mut Case,
    seed: u64,
    index: u64,
    planners: &mut Planners,
    tally: &mut Tally,
) -> Result<(), Failure> {
    case.check(planners, tally).map_err(|what| Failure {
        sheet: Some(case.sheet.clone()),
        index: Some(index),
        what: format!("sheet {index} of seed {seed}: {what}"),
    })
}

/// Compares the planners on the first `count` sheets of a seed.
pub fn compare_all(seed: u64, count: u64) -> Result<(), Failure> {
    let start = Instant::now();
    tell_sheet_on_panic(seed);
    let next_block = AtomicU64::new(0);
    let failure: Mutex<Option<Failure>> = Mutex::new(None);
    let tally = Mutex::new(Tally::default());
    let work = || {
        let mut planners = Planners::new();
        let mut own_tally = Tally::default();
        'blocks: loop {
            let first = next_block.fetch_add(BLOCK, Ordering::Relaxed);
            for index in first..first + BLOCK {
                if index >= count {
                    break 'blocks;
                }
                CURRENT.set(Some(index));
                let mut case = Case::new(seed, index);
                let outcome = compare_case(&mut case, seed, index, &mut planners, &mut own_tally);
                if let Err(found) = outcome {
                    // The other thread ends with its block.
                    next_block.store(count, Ordering::Relaxed);
                    let mut failure = failure.lock().expect("no thread panics");
                    if failure.as_ref().is_none_or(|kept| found.index < kept.index) {
                        *failure = Some(found);
                    }
                    break 'blocks;
                }
            }
        }
        tally.lock().expect("no thread panics").add(&own_tally);
    };
    std::thread::scope(|scope| {
        for _ in 0..THREADS {
            scope.spawn(work);
        }
    });
    if let Some(failure) = failure.into_inner().expect("no thread panics") {
        return Err(failure);
    }
    let tally = tally.into_inner().expect("no thread panics");
    let seconds = start.elapsed().as_secs_f64();
    println!(
        "random sheets: {count} of seed {seed} in {seconds:.1} s, {:.0} a second",
        count as f64 / seconds
    );
    tally.print(count);
    if !tally.has_shares(count) {
        return Err(Failure {
            sheet: None,
            index: None,
            what: "too few sheets had one of the outcomes".to_string(),
        });
    }
    Ok(())
}

/// Lets a panic, as of an index out of bounds in the second planner, tell the sheet it comes from.
fn tell_sheet_on_panic(seed: u64) {
    let usual = std::panic::take_hook();
    std::panic::set_hook(Box::new(move |panic| {
        usual(panic);
        if let Some(index) = CURRENT.get() {
            eprintln!("made again by: --seed {seed} --only {index}");
        }
    }));
}
