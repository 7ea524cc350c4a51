//! Plans drawn by hand: both planners on one plan, and what is due of it by the card.
//!
//! Every plan is judged once more by the words of the card, with loads worked out anew. On small trees the greatest
//! total is found by linear programming. The pairs of both reports are judged too.

use crate::damage;
use crate::exact::{self, Fraction};
use crate::indexed::{self, Different};
use crate::programs::{Expected, Files, Words, run_words};
use crate::small;
use second::{Judged, REPORT_BYTES};
use sheets::drawn::{self, Due};
use sheets::judged::TRIED;
use sheets::ledger::lines;
use sheets::plans::{Case, case, every_small_plan, report_lines};
use sheets::{Edition, Network, Random};
use std::path::PathBuf;
use std::time::Instant;
use waderarmoire::{JudgeRefusal, Judgement};

/// With fewer plans it is left to chance what occurs in them.
const ENOUGH_FOR_SHARES: u64 = 10_000;
/// At least one in this many plans must be refused with each number that a line can get, and with 21.
const LEAST_SHARE: u64 = 200;
/// At least one in this many plans must get yes, and one must get no.
const LEAST_JUDGED_SHARE: u64 = 10;
/// At least one in this many plans must get yes with other pairs than those of the report.
const LEAST_OTHER_SHARE: u64 = 50;
/// At least one in this many plans must be refused with 1, and one with 1,024 lines be accepted.
const LEAST_LIMIT_SHARE: u64 = 1_000;
/// The numbers that a plan is refused with, but for its length.
const NUMBERS: [usize; 9] = [2, 10, 11, 17, 12, 3, 6, 20, 21];
/// Trees of so few sites are solved.
const SOLVED_SITES: usize = 7;

/// What occurred in the plans.
#[derive(Default)]
struct Tally {
    /// How many plans got yes, and no.
    judged: [u64; 2],
    /// How many got yes with other pairs than those of the report.
    other_pairs: u64,
    /// How many were refused with each number.
    refused: [u64; 22],
    /// How many were refused for the sheet.
    sheets: u64,
    /// How many accepted plans have 1,024 lines.
    longest: u64,
    /// How many greatest totals were found by linear programming.
    solved: u64,
}

impl Tally {
    fn add(&mut self, other: &Tally) {
        let own = self.judged.iter_mut().chain(&mut self.refused);
        for (count, more) in own.zip(other.judged.iter().chain(&other.refused)) {
            *count += more;
        }
        self.other_pairs += other.other_pairs;
        self.sheets += other.sheets;
        self.longest += other.longest;
        self.solved += other.solved;
    }

    fn see(&mut self, due: Due, plan: &[u8]) {
        match due {
            Due::Judged(_, is_largest) => {
                self.judged[usize::from(!is_largest)] += 1;
                let lines = lines(plan).count();
                self.longest += u64::from(lines == drawn::PLAN_LINES);
            }
            Due::Refused(_, number, _) => self.refused[usize::from(number)] += 1,
        }
    }

    /// Whether each answer occurred in enough of so many plans.
    fn has_shares(&self, count: u64) -> bool {
        let [yes, no] = self.judged;
        let has = |plans: u64, share: u64| plans >= count / share;
        NUMBERS
            .iter()
            .all(|&number| has(self.refused[number], LEAST_SHARE))
            && has(yes.min(no), LEAST_JUDGED_SHARE)
            && has(self.other_pairs, LEAST_OTHER_SHARE)
            && has(self.refused[1], LEAST_LIMIT_SHARE)
            && has(self.longest, LEAST_LIMIT_SHARE)
            && has(self.sheets, LEAST_SHARE)
    }
}

/// What the proved library answers.
fn proved(sheet: &[u8], plan: &[u8]) -> Judged {
    match waderarmoire::judge(sheet, plan) {
        Ok(Judgement { total, is_largest }) => Judged::Accepted { total, is_largest },
        Err(JudgeRefusal { text, number, line }) => Judged::Refused { text, number, line },
    }
}

/// What both planners answer to a plan; it must be what is due.
fn compare(sheet: &[u8], plan: &[u8], due: Due) -> Result<(), String> {
    let proved = proved(sheet, plan);
    let second = second::judge(sheet, plan);
    if proved != second {
        return Err(format!(
            "the proved planner answers {proved:?}, the second {second:?}, where {due:?} is due"
        ));
    }
    if proved.line() != due.line() {
        return Err(format!(
            "both planners answer {proved:?} where {due:?} is due"
        ));
    }
    Ok(())
}

/// The report headed `plan` that the second planner writes of a sheet, empty if it is refused.
fn report(sheet: &[u8]) -> Vec<u8> {
    let mut buffer = vec![0; REPORT_BYTES];
    match second::plan(sheet, &mut buffer) {
        second::Outcome::Report { length } => buffer.truncate(length),
        second::Outcome::Refused { .. } => buffer.clear(),
    }
    buffer
}

/// The total in the heading of a report.
fn total(report: &[u8]) -> Result<u64, String> {
    let text = String::from_utf8_lossy(report);
    let field = text.split('\t').nth(1).and_then(|it| it.parse().ok());
    field.ok_or("a report has no total".to_string())
}

/// Compares the planners on the pairs of the two reports of the proved planner: those in halves are the largest,
/// those in whole circuits if they have the same total.
fn compare_reports(sheet: &[u8]) -> Result<(), String> {
    let mut buffer = vec![0; REPORT_BYTES];
    let refused = |_| "a tree is refused".to_string();
    let halves = waderarmoire::plan(sheet, &mut buffer)
        .map_err(refused)?
        .to_vec();
    let circuits = waderarmoire::whole(sheet, &mut buffer).map_err(refused)?;
    let [in_halves, in_circuits] = [total(&halves)?, total(circuits)?];
    let told = |what| move |text| format!("the pairs of the report headed {what}: {text}");
    let due = Due::Judged(in_halves, true);
    compare(sheet, &report_lines(&halves), due).map_err(told("plan"))?;
    let due = Due::Judged(in_circuits, in_circuits == in_halves);
    compare(sheet, &report_lines(circuits), due).map_err(told("whole"))
}

/// Whether a plan has the lines of a report, in any order.
fn is_of_report(plan: &[u8], report: &[u8]) -> bool {
    let [one, other] = [plan, &report_lines(report)].map(|text| {
        let mut lines: Vec<Vec<u8>> = text
            .split(|&byte| byte == b'\n')
            .map(<[u8]>::to_ascii_uppercase)
            .collect();
        lines.sort_unstable();
        lines
    });
    one == other
}

/// Compares the planners on one random plan, and at times on its sheet's reports and on a damaged sheet.
fn compare_random(case: &Case, random: &mut Random, tally: &mut Tally) -> Result<(), String> {
    let due = drawn::due(&case.network, &case.plan);
    compare(&case.sheet, &case.plan, due)?;
    tally.see(due, &case.plan);
    if let Due::Judged(total, is_largest) = due {
        let is_other = is_largest && !is_of_report(&case.plan, &report(&case.sheet));
        tally.other_pairs += u64::from(is_other);
        if case.network.names.len() <= SOLVED_SITES {
            tally.solved += 1;
            let greatest = exact::greatest_total(&case.network);
            let twice = greatest + greatest;
            let given = Fraction::whole(total);
            if given > twice || is_largest != (given == twice) {
                return Err(format!("{due:?} of a plan where {greatest:?} is greatest"));
            }
        }
    }
    if random.once_in(2) {
        compare_reports(&case.sheet)?;
    }
    if random.once_in(8) {
        let edition = *random.pick(&Edition::ALL);
        tally.sheets += u64::from(compare_damaged(edition, &case.plan, random)?);
    }
    Ok(())
}

/// Compares the planners on a plan over a damaged sheet; says whether it is refused, as [`second::plan`] does.
fn compare_damaged(edition: Edition, plan: &[u8], random: &mut Random) -> Result<bool, String> {
    let sheet = damage::damaged(edition, random).sheet;
    let refused = second::plan(&sheet, &mut [0; REPORT_BYTES]);
    let second::Outcome::Refused { number, line } = refused else {
        return Ok(false);
    };
    let due = Due::Refused(1, number, line);
    compare(&sheet, plan, due).map_err(|what| format!("a damaged sheet: {what}"))?;
    Ok(true)
}

fn different(case: &Case, what: String) -> Different {
    Different {
        sheet: case.sheet.clone(),
        other: ("plan", case.plan.clone()),
        what,
    }
}

/// Both planners on the plans with answers written by hand, on all plans out of a short list of lines, and on all
/// plans of small trees.
pub fn small() -> Result<(), Different> {
    for tried in &TRIED {
        let (sheet, plan) = (tried.sheet(), tried.plan());
        compare(&sheet, &plan, tried.due).map_err(|what| Different {
            sheet: sheet.clone(),
            other: ("plan", plan.clone()),
            what: format!("{}: {what}", tried.title),
        })?;
    }
    let count = every_small_plan(3, |case| {
        let due = drawn::due(&case.network, &case.plan);
        compare(&case.sheet, &case.plan, due).map_err(|what| different(case, what))
    })?;
    println!(
        "plans drawn by hand: {} with answers written out; {count} of at most 3 lines, every answer by the card",
        TRIED.len()
    );
    let start = Instant::now();
    let plans = every_amount()?;
    println!(
        "  {plans} plans over all trees of 2 to 4 sites in {:.1} s, every amount to each pair, greatest totals found \
         by linear programming",
        start.elapsed().as_secs_f64()
    );
    Ok(())
}

/// The most halves that a pair is given where all amounts are tried.
const MOST_HALVES: u64 = 4;

/// Both planners on all trees of 2 to 4 sites with sizes 0 to 2 and all sets of marked joints, with all amounts
/// to all pairs that are free to be joined; returns how many plans there are.
fn every_amount() -> Result<u64, Different> {
    let mut count = 0;
    let mut found = None;
    let compared = small::every_marked_tree(|network, sheet| {
        let pairs = free_pairs(network);
        let greatest = exact::greatest_total(network);
        let base = MOST_HALVES + 1;
        for number in 0..base.pow(pairs.len() as u32) {
            let amounts: Vec<u64> = (0..pairs.len() as u32)
                .map(|pair| number / base.pow(pair) % base)
                .collect();
            let plan = plan_of(network, &pairs, &amounts);
            let due = due_of(network, &pairs, &amounts, greatest);
            count += 1;
            if let Err(what) = compare(sheet, &plan, due) {
                found = Some(plan);
                return Err(what);
            }
        }
        Ok(())
    });
    compared.map_err(|failure| Different {
        sheet: failure.sheet.unwrap_or_default(),
        other: ("plan", found.unwrap_or_default()),
        what: failure.what,
    })?;
    Ok(count)
}

/// Two ends, and the links of the path between them.
type FreePair = ([usize; 2], Vec<usize>);

/// The pairs of ends with no other end between them.
fn free_pairs(network: &Network) -> Vec<FreePair> {
    let paths = exact::paths(network);
    let ends = |path: &[usize]| {
        let sites = 0..network.names.len();
        let times = |&site: &usize| {
            let on_path = path
                .iter()
                .filter(|&&link| network.links[link].contains(&site));
            on_path.count() == 1
        };
        let ends: Vec<usize> = sites.filter(times).collect();
        [ends[0], ends[1]]
    };
    paths.into_iter().map(|path| (ends(&path), path)).collect()
}

/// The plan that gives each pair an amount, the later site first where it is odd.
fn plan_of(network: &Network, pairs: &[FreePair], amounts: &[u64]) -> Vec<u8> {
    let mut plan = Vec::new();
    for ((sites, _), amount) in pairs.iter().zip(amounts).filter(|(_, amount)| **amount > 0) {
        let [mut first, mut second] = sites.map(|site| network.names[site].as_slice());
        if amount % 2 == 1 {
            (first, second) = (second, first);
        }
        let amount = amount.to_string();
        plan.extend([b"P", first, second, amount.as_bytes()].join(&b'\t'));
        plan.push(b'\n');
    }
    plan
}

/// What is due of amounts to pairs.
fn due_of(network: &Network, pairs: &[FreePair], amounts: &[u64], greatest: Fraction) -> Due {
    let load = |link: usize| {
        let given = pairs.iter().zip(amounts);
        let over = given.filter(|((_, path), _)| path.contains(&link));
        over.map(|(_, amount)| amount).sum::<u64>()
    };
    let mut usable = network.usable_sizes().into_iter().enumerate();
    if usable.any(|(link, usable)| load(link) > 2 * u64::from(usable)) {
        return Due::Refused(2, 21, 0);
    }
    let total = amounts.iter().sum();
    Due::Judged(total, Fraction::whole(total) == greatest + greatest)
}

/// Compares the planners on one plan of a seed.
pub fn compare_one(seed: u64, index: u64) -> Result<(), Different> {
    compare_index(seed, index, &mut Tally::default())
}

fn compare_index(seed: u64, index: u64, tally: &mut Tally) -> Result<(), Different> {
    let (case, mut random) = case(seed, index, report);
    compare_random(&case, &mut random, tally)
        .map_err(|what| different(&case, indexed::told("plan", seed, index, &what)))
}

/// Compares the planners on the first `count` plans of a seed.
pub fn compare_all(seed: u64, count: u64) -> Result<(), Different> {
    let start = Instant::now();
    let kept = indexed::compare_all([seed, count], "plan", Tally::default, |own, index| {
        compare_index(seed, index, own)
    })?;
    let mut tally = Tally::default();
    for own in &kept {
        tally.add(own);
    }
    println!(
        "random plans: {count} of seed {seed} in {:.1} s; yes, no: {:?}; yes with other pairs than the report: {}; {} \
         solved",
        start.elapsed().as_secs_f64(),
        tally.judged,
        tally.other_pairs,
        tally.solved
    );
    println!(
        "  refused {NUMBERS:?}: {:?}; for their length: {}; for the sheet: {}; accepted of 1,024 lines: {}",
        NUMBERS.map(|number| tally.refused[number]),
        tally.refused[1],
        tally.sheets,
        tally.longest
    );
    if count >= ENOUGH_FOR_SHARES && !tally.has_shares(count) {
        return Err(Different {
            sheet: Vec::new(),
            other: ("plan", Vec::new()),
            what: "too few plans had one of the answers".to_string(),
        });
    }
    Ok(())
}

/// The programs that judge a plan, given the files of a sheet and a plan.
pub struct Programs {
    pub proved: PathBuf,
    pub second: PathBuf,
}

impl Programs {
    /// Compares what the programs print on `count` plans, and the examples on some.
    pub fn compare(&self, seed: u64, count: u64, examples: &[PathBuf]) -> Result<(), Different> {
        let files = Files::new("plan");
        for index in 0..count {
            let (mut case, mut random) = case(seed, index, report);
            if random.once_in(6) {
                let edition = *random.pick(&Edition::ALL);
                case.sheet = damage::damaged(edition, &mut random).sheet;
            }
            let examples = if index % 5 == 0 { examples } else { &[] };
            self.compare_one(&case, &files, examples)
                .map_err(|what| different(&case, what))?;
        }
        println!(
            "programs: {count} plans drawn by hand, {} of them with {} examples",
            count.div_ceil(5),
            examples.len()
        );
        Ok(())
    }

    fn compare_one(&self, case: &Case, files: &Files, examples: &[PathBuf]) -> Result<(), String> {
        let [sheet, plan] = files.put([&case.sheet, &case.plan])?;
        let answer = second::judge(&case.sheet, &case.plan);
        let words = match answer {
            Judged::Accepted { .. } => Words::None,
            Judged::Refused { text, number, line } => {
                Words::These(format!("{}\n", JudgeRefusal { text, number, line }))
            }
        };
        let due = Expected {
            printed: answer.line().into_bytes(),
            words,
        };
        run_words(&self.proved, &[sheet, plan], &due)?;
        run_words(&self.second, &[sheet, plan], &due.silent())?;
        for example in examples {
            run_words(example, &["judge".as_ref(), sheet, plan], &due.silent())?;
        }
        Ok(())
    }
}
