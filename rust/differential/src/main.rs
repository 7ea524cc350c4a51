//! Compares the proved planner with the second one.
//!
//! The option `--help` tells the others.
//!
//! The sheets of the scope document come first, then small sheets with names in either case, with
//! reserves, with marks and with bare numbers as names, then sheets at the limits of both editions,
//! then all small trees, then random trees and damaged sheets of both editions from a seed, then the
//! programs over standard input and output. Reports headed `plan` are compared byte for byte. Of those
//! headed `whole` loads and end sets are free: totals are compared, and pairs with those that the walk
//! gives for the printed loads. Of every accepted sheet the reports are checked against the demands on
//! them. Orders of work are compared place for place, and some checked against the card's rule. The
//! first sheet with a difference is kept in a file, and the seed and index that make it again are
//! printed. With an error planted in the second planner, which needs the feature `planted`, only the
//! random sheets are compared, to show that they find it, or the random logs, pairs of regions, range sheets
//! or plans drawn by hand for an error in these.
//!
//! Then come booking logs: some with answers written by hand, all small ones over a short list of lines,
//! such with bare numbers as names, random ones, and the programs over files. Answers are compared line
//! by line and checked against the card.
//!
//! Then come pairs of regions that share one link, or do not: some with answers written by hand, all small
//! ones, random ones, and the programs over files. Answers and lists are compared place by place, with what is
//! due on the joined tree, and with the plan of the joined sheet.
//!
//! Then come range sheets: some with answers written by hand, small ones and such at the limits, all small trees
//! with every choice of sizes, random ones, and the programs over standard input and output.
//!
//! Then come plans drawn by hand: some with answers written out, all small ones over a short list of lines, all
//! amounts over all small trees, random ones, and the programs over files. Answers are compared with what is due by
//! the card, and with the greatest totals by linear programming. The exercise book is compared byte for byte.
//! Sheets that hold the same records in other orders come last.

mod bare;
mod book;
mod card;
mod circuits;
mod compare;
mod damage;
mod demands;
mod editions;
mod exact;
mod indexed;
mod inward;
mod logs;
mod marks;
mod options;
mod plans;
mod printed;
mod programs;
mod random;
mod region_programs;
mod regions;
mod search;
mod shuffled;
mod small;
mod spans;
mod spelling;
mod steps;
mod tally;
mod usable;

use indexed::Different;
use options::Options;
use programs::Programs;
use std::process::ExitCode;
use std::time::Instant;

/// A sheet on which something is wrong.
struct Failure {
    sheet: Option<Vec<u8>>,
    index: Option<u64>,
    what: String,
}

fn main() -> ExitCode {
    match Options::told() {
        Ok(Some(options)) => run(&options),
        Ok(None) => {
            print!("{}", options::HELP);
            ExitCode::SUCCESS
        }
        Err(text) => {
            eprintln!("differential: {text}; --help says more");
            ExitCode::from(2)
        }
    }
}

fn run(options: &Options) -> ExitCode {
    let start = Instant::now();
    let outcome = if let Some(index) = options.only {
        random::compare_one(options.seed, index, |sheet| {
            if options.keep.is_some() {
                keep(sheet, options);
            }
        })
    } else if options.only_log.is_some() || options.planted.is_some_and(is_of_logs) {
        compare_logs(options)
    } else if options.only_pair.is_some() || options.planted.is_some_and(is_of_regions) {
        compare_regions(options)
    } else if options.only_survey.is_some() || options.planted.is_some_and(is_of_ranges) {
        compare_ranges(options)
    } else if options.only_plan.is_some() || options.planted.is_some_and(is_of_plans) {
        compare_plans(options)
    } else if options.planted.is_some_and(is_of_book) {
        compare_book(options)
    } else if options.only_shuffle.is_some() || options.planted.is_some_and(is_of_shuffles) {
        compare_shuffles(options)
    } else if options.planted.is_some() {
        random::compare_all(options.seed, options.sheets)
    } else {
        small::tried_sheets()
            .and_then(|()| small::names_in_either_case())
            .and_then(|()| small::reserves())
            .and_then(|()| small::site_lines())
            .and_then(|()| small::bare_numbers())
            .and_then(|()| small::headings())
            .and_then(|()| small::small_trees())
            .and_then(|()| small::marked_trees())
            .and_then(|()| random::compare_all(options.seed, options.sheets))
            .and_then(|()| compare_programs(options))
            .and_then(|()| compare_logs(options))
            .and_then(|()| compare_regions(options))
            .and_then(|()| compare_ranges(options))
            .and_then(|()| compare_plans(options))
            .and_then(|()| compare_book(options))
            .and_then(|()| compare_shuffles(options))
    };
    let Err(failure) = outcome else {
        println!("no difference in {:.1} s", start.elapsed().as_secs_f64());
        return ExitCode::SUCCESS;
    };
    println!("DIFFERENCE: {}", failure.what);
    if let Some(index) = failure.index {
        println!("made again by: --seed {} --only {index}", options.seed);
    }
    if let Some(sheet) = failure.sheet {
        keep(&sheet, options);
    }
    ExitCode::FAILURE
}

/// Whether a planted error is one in the replay of logs.
fn is_of_logs(number: u64) -> bool {
    use second::planted::Error::{
        AcrossAccepted, BareInLogUnknown, FirstLinkOnly, PairsByByte, UnendedLeftOut,
    };
    let first_of_logs = FirstLinkOnly as u64..=UnendedLeftOut as u64;
    let of_later_cards = [AcrossAccepted, PairsByByte, BareInLogUnknown].map(|error| error as u64);
    first_of_logs.contains(&number) || of_later_cards.contains(&number)
}

/// Whether a planted error is one in regions.
fn is_of_regions(number: u64) -> bool {
    use second::planted::Error::{FarWithLinks, GreaterShared};
    (GreaterShared as u64..=FarWithLinks as u64).contains(&number)
}

/// Whether a planted error is one in range sheets.
fn is_of_ranges(number: u64) -> bool {
    use second::planted::Error::{UnheadedRangesByFirst, UntrimmedLeast};
    (UntrimmedLeast as u64..=UnheadedRangesByFirst as u64).contains(&number)
}

/// Whether a planted error is one in the judging of plans.
fn is_of_plans(number: u64) -> bool {
    use second::planted::Error::{FitIsLargest, LargestUntrimmed};
    (FitIsLargest as u64..=LargestUntrimmed as u64).contains(&number)
}

/// Whether a planted error is one in the exercise book.
fn is_of_book(number: u64) -> bool {
    use second::planted::Error::{LastTreeLeftOut, SizesBeforeLinks};
    (SizesBeforeLinks as u64..=LastTreeLeftOut as u64).contains(&number)
}

/// Whether a planted error is one that goes by the order of lines.
fn is_of_shuffles(number: u64) -> bool {
    use second::planted::Error::{CutToLinksAbove, TurnedReserveLost};
    (CutToLinksAbove as u64..=TurnedReserveLost as u64).contains(&number)
}

/// Compares the programs that read one sheet.
fn compare_programs(options: &Options) -> Result<(), Failure> {
    let [proved, second] = options.programs(["plan", "whole", "order"]);
    let programs = Programs {
        proved,
        second,
        examples: options.examples.clone(),
    };
    programs.compare(options.seed, options.runs as usize)
}

/// Compares the exercise books of both planners.
fn compare_book(options: &Options) -> Result<(), Failure> {
    let [[proved], [second]] = options.programs(["book"]);
    book::Programs { proved, second }.compare(options.planted.is_some())
}

/// Compares the planners on booking logs: on a single one, on random ones, or on all.
fn compare_logs(options: &Options) -> Result<(), Failure> {
    let seed = options.seed;
    let compared = if let Some(index) = options.only_log {
        logs::compare_one(seed, index)
    } else if options.planted.is_some() {
        logs::compare_all(seed, options.logs)
    } else {
        let runs = options.runs / 2;
        logs::small()
            .and_then(|()| logs::compare_all(seed, options.logs))
            .and_then(|()| {
                let [[proved], [second]] = options.programs(["replay"]);
                let programs = logs::Programs { proved, second };
                programs.compare(seed, runs, &options.examples)
            })
    };
    compared.map_err(|different: Different| different.keep(options.kept()))
}

/// Compares the planners on pairs of regions: on a single one, on random ones, or on all.
fn compare_regions(options: &Options) -> Result<(), Failure> {
    let seed = options.seed;
    let compared = if let Some(index) = options.only_pair {
        regions::compare_one(seed, index)
    } else if options.planted.is_some() {
        regions::compare_all(seed, options.pairs)
    } else {
        let runs = options.runs / 2;
        regions::small()
            .and_then(|()| regions::compare_all(seed, options.pairs))
            .and_then(|()| {
                let [proved, second] = options.programs(["regions", "region"]);
                let programs = region_programs::Programs { proved, second };
                programs.compare(seed, runs, &options.examples)
            })
    };
    compared.map_err(|different: Different| different.keep(options.kept()))
}

/// Compares the planners on range sheets: on a single one, on random ones, or on all.
fn compare_ranges(options: &Options) -> Result<(), Failure> {
    let seed = options.seed;
    if let Some(index) = options.only_survey {
        return spans::compare_one(seed, index);
    }
    if options.planted.is_some() {
        return spans::compare_all(seed, options.surveys);
    }
    let runs = options.runs;
    spans::small()?;
    spans::compare_all(seed, options.surveys)?;
    let [[proved], [second]] = options.programs(["ranges"]);
    spans::Programs { proved, second }.compare(seed, runs, &options.examples)
}

/// Compares the planners on plans drawn by hand: on a single one, on random ones, or on all.
fn compare_plans(options: &Options) -> Result<(), Failure> {
    let seed = options.seed;
    let compared = if let Some(index) = options.only_plan {
        plans::compare_one(seed, index)
    } else if options.planted.is_some() {
        plans::compare_all(seed, options.plans)
    } else {
        let runs = options.runs / 2;
        plans::small()
            .and_then(|()| plans::compare_all(seed, options.plans))
            .and_then(|()| {
                let [[proved], [second]] = options.programs(["judge"]);
                let programs = plans::Programs { proved, second };
                programs.compare(seed, runs, &options.examples)
            })
    };
    compared.map_err(|different| different.keep(options.kept()))
}

/// Compares the planners on sheets with the same records: on a single pair, on random ones, or on all.
fn compare_shuffles(options: &Options) -> Result<(), Failure> {
    let seed = options.seed;
    let compared = if let Some(index) = options.only_shuffle {
        shuffled::compare_one(seed, index)
    } else if options.planted.is_some() {
        shuffled::compare_all(seed, options.shuffles)
    } else {
        shuffled::small().and_then(|()| shuffled::compare_all(seed, options.shuffles))
    };
    compared.map_err(|different| different.keep(options.kept()))
}

/// Keeps a sheet in the file for it.
fn keep(sheet: &[u8], options: &Options) {
    let file = options.kept();
    match std::fs::write(file, sheet) {
        Ok(()) => println!("the sheet is kept in {}", file.display()),
        Err(error) => println!("the sheet cannot be kept: {error}"),
    }
}
