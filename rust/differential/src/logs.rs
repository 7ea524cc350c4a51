//! Booking logs: both planners on one log, and what is due of it by the card.
//!
//! Every answered log is checked line by line without either planner: its answers are the first causes in
//! the card's order, and loads, worked out anew from the lines answered with 0, stay within twice the
//! capacities.

use crate::damage;
use crate::indexed::{self, Different};
use crate::programs::{Expected, Files, Words, run_words};
use second::{LOG_LINES, REPORT_BYTES, Replayed};
use sheets::bare;
use sheets::ledger::{self, Seen, is_too_long};
use sheets::logs::{Case, case, every_small_log};
use sheets::{Edition, Network, Random};
use std::path::PathBuf;
use std::time::Instant;

/// The length of the lists, above that of any answered log.
const LIST_PLACES: usize = LOG_LINES + 64;
/// With fewer logs it is left to chance what occurs in them.
const ENOUGH_FOR_SHARES: u64 = 10_000;
/// At least one in this many logs must have each answer in one of its lines.
const LEAST_SHARE: u64 = 100;
/// At least one in this many logs must have a line for two ends with another one between them.
const LEAST_ACROSS_SHARE: u64 = 10;
/// At least one in so many logs must be over a sheet of edition 2, and over one of more sites than edition 1
/// has.
const LEAST_SECOND_SHARES: [u64; 2] = [5, 100];
/// All answers that a line can get.
const ANSWERS: [usize; 11] = [0, 2, 3, 6, 10, 11, 17, 12, 14, 15, 16];

/// The lists of the two planners, which hold a pattern throughout before every replay.
struct Lists {
    pattern: Vec<u64>,
    proved: Vec<u64>,
    second: Vec<u64>,
}

fn proved_replay(sheet: &[u8], log: &[u8], answers: &mut [u64]) -> Replayed {
    match waderarmoire::replay(sheet, log, answers) {
        Ok(answers) => Replayed::Answered {
            count: answers.len(),
        },
        Err(waderarmoire::ReplayRefusal { text, number, line }) => {
            Replayed::Refused { text, number, line }
        }
    }
}

/// How many answers there are.
fn count_of(outcome: Replayed) -> usize {
    match outcome {
        Replayed::Answered { count } => count,
        Replayed::Refused { .. } => 0,
    }
}

impl Lists {
    fn new() -> Self {
        // No place of the pattern is an answer.
        let pattern: Vec<u64> = (0..LIST_PLACES as u64).map(|it| u64::MAX - it).collect();
        Lists {
            proved: pattern.clone(),
            second: pattern.clone(),
            pattern,
        }
    }

    /// Lets both planners replay a log with the first `places` of their lists, and compares what they
    /// answer, place by place. No place past the answers may change, behind those that are lent too.
    fn replay(
        &mut self,
        sheet: &[u8],
        log: &[u8],
        places: usize,
    ) -> Result<(Replayed, &[u64]), String> {
        let proved = proved_replay(sheet, log, &mut self.proved[..places]);
        let second = second::replay(sheet, log, &mut self.second[..places]);
        if proved != second {
            return Err(format!(
                "list of {places}: the proved planner answers {proved:?}, the second {second:?}"
            ));
        }
        let count = count_of(second);
        let past = &self.pattern[count..];
        if self.proved[count..] != *past || self.second[count..] != *past {
            return Err(format!(
                "list of {places}: what is past the answers is changed, with {second:?}"
            ));
        }
        self.proved[..count]
            .iter()
            .zip(&self.second)
            .zip(1..)
            .find(|((proved, second), _)| proved != second)
            .map_or(Ok(()), |((proved, second), line)| {
                Err(format!(
                    "line {line}: the proved planner answers {proved}, the second {second}"
                ))
            })?;
        self.proved[..count].copy_from_slice(&self.pattern[..count]);
        Ok((second, &self.second[..count]))
    }

    /// Puts the pattern back where the last answers were.
    fn clear(&mut self, count: usize) {
        self.second[..count].copy_from_slice(&self.pattern[..count]);
    }
}

/// What occurred in the logs.
#[derive(Default)]
struct Tally {
    /// How many logs have a line with each answer.
    logs: [u64; 18],
    lines: u64,
    /// How many logs were refused: for the sheet, for their length, for the list.
    refused: [u64; 3],
    /// How many logs had 511, and 512, pairs open.
    crowded: [u64; 2],
    /// How many logs have a line for two ends with another one between them.
    across: u64,
    /// How many answered logs are over a sheet of edition 2, and over one of more sites than edition 1 has.
    second: [u64; 2],
}

impl Tally {
    fn add(&mut self, other: &Tally) {
        let counts = |tally: &Tally| {
            let of_logs = [&tally.logs[..], &tally.refused, &tally.crowded];
            [&of_logs.concat()[..], &tally.second].concat()
        };
        let own = self.logs.iter_mut().chain(&mut self.refused);
        let own = own.chain(&mut self.crowded).chain(&mut self.second);
        for (count, more) in own.zip(counts(other)) {
            *count += more;
        }
        self.lines += other.lines;
        self.across += other.across;
    }

    fn see(&mut self, network: &Network, answers: &[u64], seen: Seen) {
        let mut occurs = [0; 18];
        for &answer in answers {
            occurs[answer as usize] = 1;
        }
        for (count, occurs) in self.logs.iter_mut().zip(occurs) {
            *count += occurs;
        }
        self.lines += answers.len() as u64;
        for (count, least) in self.crowded.iter_mut().zip([511, 512]) {
            *count += u64::from(seen.most_open >= least);
        }
        self.across += u64::from(seen.across > 0);
        let is_large = network.names.len() > Edition::One.sites();
        let of_second = [network.edition == Edition::Two, is_large];
        for (count, is_seen) in self.second.iter_mut().zip(of_second) {
            *count += u64::from(is_seen);
        }
    }

    /// Whether each answer and each refusal occurred in enough of so many logs.
    fn has_shares(&self, count: u64) -> bool {
        let least = count / LEAST_SHARE;
        let answers = ANSWERS.map(|answer| self.logs[answer]);
        let counts = answers.iter().chain(&self.crowded);
        counts
            .chain([&self.refused[0], &self.refused[2]])
            .all(|&logs| logs >= least)
            && self.refused[1] >= least / 4
            && self.across >= count / LEAST_ACROSS_SHARE
            && self
                .second
                .iter()
                .zip(LEAST_SECOND_SHARES)
                .all(|(&logs, share)| logs >= count / share)
    }
}

/// Compares the planners on a log over a sheet that is accepted, with a list of so many places, and
/// checks the answers against the card.
fn compare(lists: &mut Lists, case: &Case, places: usize, tally: &mut Tally) -> Result<(), String> {
    let count = ledger::lines(&case.log).count();
    let (outcome, answers) = lists.replay(&case.sheet, &case.log, places)?;
    let refused = |number| Replayed::Refused {
        text: 2,
        number,
        line: 0,
    };
    let due = if is_too_long(&case.log) {
        tally.refused[1] += 1;
        refused(1)
    } else if places < count {
        tally.refused[2] += 1;
        refused(9)
    } else {
        let seen = ledger::check(&case.network, &case.log, answers)
            .map_err(|what| format!("both planners: {what}"))?;
        tally.see(&case.network, answers, seen);
        Replayed::Answered { count }
    };
    lists.clear(count_of(outcome));
    if outcome != due {
        return Err(format!(
            "list of {places}: both planners answer {outcome:?} where {due:?} is due"
        ));
    }
    Ok(())
}

/// Compares the planners on a log over a damaged sheet, which is refused as [`second::plan`] does.
fn compare_damaged(
    lists: &mut Lists,
    sheet: &[u8],
    log: &[u8],
    places: usize,
    tally: &mut Tally,
) -> Result<(), String> {
    let (outcome, _) = lists.replay(sheet, log, places)?;
    lists.clear(count_of(outcome));
    let second::Outcome::Refused { number, line } = second::plan(sheet, &mut [0; REPORT_BYTES])
    else {
        return Ok(());
    };
    tally.refused[0] += 1;
    let text = 1;
    let due = Replayed::Refused { text, number, line };
    if outcome != due {
        return Err(format!(
            "both planners answer {outcome:?} where {due:?} is due"
        ));
    }
    Ok(())
}

/// Compares the planners on one random log, with lists of some lengths.
fn compare_random(
    lists: &mut Lists,
    case: &Case,
    random: &mut Random,
    tally: &mut Tally,
) -> Result<(), String> {
    let count = ledger::lines(&case.log).count().min(LOG_LINES + 8);
    let longer = random.between(count, LIST_PLACES);
    let enough = *random.pick(&[count, count + 1, count + 2, longer]);
    compare(lists, case, enough, tally)?;
    if count > 0 && random.once_in(3) {
        let shorter = random.below(count);
        let places = [0, shorter, count - 1, count.saturating_sub(2)];
        compare(lists, case, *random.pick(&places), tally)?;
    }
    if count < 64 && random.once_in(16) {
        for places in count.saturating_sub(4)..=count + 4 {
            compare(lists, case, places, tally)?;
        }
    }
    if random.once_in(8) {
        let edition = *random.pick(&Edition::ALL);
        let sheet = damage::damaged(edition, random).sheet;
        compare_damaged(lists, &sheet, &case.log, longer, tally)?;
        compare_damaged(lists, &sheet, &case.log, random.below(3), tally)?;
    }
    Ok(())
}

/// Both planners on the logs with answers written by hand, and on all small logs.
pub fn small() -> Result<(), Different> {
    let mut lists = Lists::new();
    for tried in &sheets::replay::TRIED {
        let (sheet, log) = (tried.sheet(), tried.log());
        for places in [LIST_PLACES, tried.answers.len()] {
            let is_right = match lists.replay(&sheet, &log, places) {
                Ok((_, answers)) => answers == tried.answers,
                Err(_) => false,
            };
            lists.clear(LIST_PLACES);
            if !is_right {
                let what = format!("{}: the answers are others", tried.title);
                let other = ("log", log);
                return Err(Different { sheet, other, what });
            }
        }
    }
    let mut tally = Tally::default();
    let mut see = |case: &Case| {
        let places = ledger::lines(&case.log).count();
        let mut compared = compare(&mut lists, case, places, &mut tally);
        if places > 0 {
            compared = compared.and_then(|()| compare(&mut lists, case, places - 1, &mut tally));
        }
        compared.map_err(|what| different(case, what))
    };
    let count = every_small_log(3, &mut see)?;
    let lines = bare::every_log(&mut see)?;
    println!(
        "logs: {} with answers written by hand; {count} of at most 3 lines, every answer and every load \
         by the card",
        sheets::replay::TRIED.len()
    );
    println!("  bare numbers: {lines} lines, every answer by the card");
    Ok(())
}

fn different(case: &Case, what: String) -> Different {
    Different {
        sheet: case.sheet.clone(),
        other: ("log", case.log.clone()),
        what,
    }
}

/// Compares the planners on one log of a seed.
pub fn compare_one(seed: u64, index: u64) -> Result<(), Different> {
    compare_index(&mut Lists::new(), seed, index, &mut Tally::default())
}

fn compare_index(
    lists: &mut Lists,
    seed: u64,
    index: u64,
    tally: &mut Tally,
) -> Result<(), Different> {
    let (case, mut random) = case(seed, index);
    compare_random(lists, &case, &mut random, tally)
        .map_err(|what| different(&case, indexed::told("log", seed, index, &what)))
}

/// Compares the planners on the first `count` logs of a seed.
pub fn compare_all(seed: u64, count: u64) -> Result<(), Different> {
    let start = Instant::now();
    let new = || (Lists::new(), Tally::default());
    let kept = indexed::compare_all([seed, count], "log", new, |(lists, own), index| {
        compare_index(lists, seed, index, own)
    })?;
    let mut tally = Tally::default();
    for (_, own) in &kept {
        tally.add(own);
    }
    println!(
        "random logs: {count} of seed {seed} in {:.1} s, {} lines",
        start.elapsed().as_secs_f64(),
        tally.lines
    );
    println!(
        "  logs with a line answered {ANSWERS:?}: {:?}",
        ANSWERS.map(|answer| tally.logs[answer])
    );
    println!(
        "  511 pairs open, 512: {:?}; another end on a path: {}; refused for the sheet, their length, the \
         list: {:?}; edition 2, more sites than edition 1 has: {:?}",
        tally.crowded, tally.across, tally.refused, tally.second
    );
    if count >= ENOUGH_FOR_SHARES && !tally.has_shares(count) {
        return Err(Different {
            sheet: Vec::new(),
            other: ("log", Vec::new()),
            what: "too few logs had one of the answers".to_string(),
        });
    }
    Ok(())
}

/// The programs that replay a log, given the files of a sheet and a log.
pub struct Programs {
    pub proved: PathBuf,
    pub second: PathBuf,
}

impl Programs {
    /// Compares what the programs print on `count` logs, and the examples on some.
    pub fn compare(&self, seed: u64, count: u64, examples: &[PathBuf]) -> Result<(), Different> {
        let files = Files::new("log");
        for index in 0..count {
            let (mut case, mut random) = case(seed, index);
            if random.once_in(6) {
                let edition = *random.pick(&Edition::ALL);
                case.sheet = damage::damaged(edition, &mut random).sheet;
            }
            let examples = if index % 5 == 0 { examples } else { &[] };
            self.compare_one(&case, &files, examples)
                .map_err(|what| different(&case, what))?;
        }
        println!(
            "programs: {count} logs, {} of them with {} examples",
            count.div_ceil(5),
            examples.len()
        );
        Ok(())
    }

    fn compare_one(&self, case: &Case, files: &Files, examples: &[PathBuf]) -> Result<(), String> {
        let [sheet, log] = files.put([&case.sheet, &case.log])?;
        let mut answers = [0; LOG_LINES];
        let outcome = second::replay(&case.sheet, &case.log, &mut answers);
        let (text, words) = match outcome {
            Replayed::Answered { count } => {
                let mut lines: Vec<_> = answers[..count].iter().map(u64::to_string).collect();
                lines.push(String::new());
                (lines.join("\n"), Words::None)
            }
            Replayed::Refused { text, number, line } => {
                let text = format!("refused\t{text}\t{number}\t{line}\n");
                (text, Words::OneLine)
            }
        };
        let due = Expected {
            printed: text.into_bytes(),
            words,
        };
        run_words(&self.proved, &[sheet, log], &due)?;
        run_words(&self.second, &[sheet, log], &due.silent())?;
        for example in examples {
            run_words(example, &["replay".as_ref(), sheet, log], &due.silent())?;
        }
        Ok(())
    }
}
