//! Two regions that share one link: both planners on a pair of sheets, and what is due by the words of the card.
//!
//! What is due of a pair is worked out on the joined tree without either planner. The joined sheet, if it is no
//! larger than a sheet may be, is planned by the proved planner too.

use crate::indexed::{self, Different};
use crate::steps;
use second::{Answer, Exchanged, REPORT_BYTES, SITES};
use sheets::joined::{Due, joined};
use sheets::neighbours::{Broken, Case, Kind, case, every_small_pair};
use sheets::regions::TRIED;
use sheets::tried::{Refused, refused};
use sheets::{Edition, Layout, Random};
use std::time::Instant;
use waderarmoire::RegionsRefusal;

/// The length of the lists, above that of any answer.
pub const LIST_PLACES: usize = SITES + 64;
/// With fewer pairs it is left to chance what occurs in them.
const ENOUGH_FOR_SHARES: u64 = 10_000;
/// One in so many pairs at least must be planned as a joined sheet; break each of the conditions alone; have its
/// first sheet refused, and its second; have a list that is too short, the first or the second; have a mark on its
/// shared link; and have more sites together than a sheet may have.
const LEAST_SHARES: [u64; 6] = [3, 40, 40, 5, 20, 2_000];

/// The lists of the two planners, which hold a pattern throughout before every call.
pub struct Lists {
    pattern: Vec<u64>,
    proved: [Vec<u64>; 2],
    second: [Vec<u64>; 2],
}

impl Lists {
    pub fn new() -> Self {
        // No place of the pattern is a size.
        let pattern: Vec<u64> = (0..LIST_PLACES as u64).map(|it| u64::MAX - it).collect();
        let both = || [pattern.clone(), pattern.clone()];
        Lists {
            proved: both(),
            second: both(),
            pattern,
        }
    }

    /// The first places of the first lists of both planners.
    pub fn lend(&mut self, places: usize) -> [&mut [u64]; 2] {
        [&mut self.proved, &mut self.second].map(|lists| &mut lists[0][..places])
    }

    /// Compares the lists of both planners, behind the places that are lent too, with the sizes that are due at the
    /// start of each and the pattern everywhere else; and puts the pattern back.
    pub fn check(&mut self, due: [&[u64]; 2]) -> Result<(), String> {
        for (who, lists) in [("proved", &mut self.proved), ("second", &mut self.second)] {
            for (region, (list, due)) in lists.iter_mut().zip(due).enumerate() {
                let (sizes, past) = list.split_at_mut(due.len());
                if sizes != due || *past != self.pattern[due.len()..] {
                    return Err(format!(
                        "list {}: the {who} planner has {sizes:?} where {due:?} is due, or changes a place past it",
                        region + 1
                    ));
                }
                sizes.copy_from_slice(&self.pattern[..due.len()]);
            }
        }
        Ok(())
    }
}

/// The first places of two lists.
fn lent([one, other]: &mut [Vec<u64>; 2], places: [usize; 2]) -> [&mut [u64]; 2] {
    [&mut one[..places[0]], &mut other[..places[1]]]
}

/// What the proved planner answers.
fn proved(sheets: [&[u8]; 2], lists: [&mut [u64]; 2]) -> Exchanged {
    match waderarmoire::regions(sheets, lists) {
        Ok(regions) => Exchanged::Answered(regions.map(answer)),
        Err(RegionsRefusal {
            sheet,
            number,
            line,
        }) => Exchanged::Refused {
            sheet,
            number,
            line,
        },
    }
}

/// The answer of the proved planner for a region.
pub fn answer(region: waderarmoire::Region) -> Answer {
    Answer {
        count: region.sizes.len(),
        sum: region.sum,
    }
}

/// The outcome and the sizes that are due.
fn told(due: &Due) -> (Exchanged, [&[u64]; 2]) {
    match due {
        Due::Answered(answers) => {
            let told = answers.each_ref().map(|answer| Answer {
                count: answer.sizes.len(),
                sum: answer.sum,
            });
            let sizes = answers.each_ref().map(|answer| &answer.sizes[..]);
            (Exchanged::Answered(told), sizes)
        }
        &Due::Refused(sheet, number, line) => {
            let refused = Exchanged::Refused {
                sheet,
                number,
                line,
            };
            (refused, [&[], &[]])
        }
    }
}

/// Compares the planners on a pair of sheets, place by place, with lists of so many places, and with what is due with
/// lists that are long enough.
fn compare(
    lists: &mut Lists,
    [one, other]: &[Vec<u8>; 2],
    due: &Due,
    places: [usize; 2],
) -> Result<(), String> {
    let by_proved = proved([one, other], lent(&mut lists.proved, places));
    let by_second = second::regions([one, other], lent(&mut lists.second, places));
    let due = due.with_places(places);
    let (outcome, sizes) = told(&due);
    if by_proved != by_second {
        return Err(format!(
            "lists of {places:?}: the proved planner answers {by_proved:?}, the second {by_second:?}"
        ));
    }
    if by_proved != outcome {
        return Err(format!(
            "lists of {places:?}: both planners answer {by_proved:?} where {outcome:?} is due"
        ));
    }
    lists
        .check(sizes)
        .map_err(|what| format!("lists of {places:?}: {what}"))
}

/// Compares the answers that are due of two regions with the plan of the joined sheet by the proved planner; false
/// if that is larger than a sheet may be.
fn compare_joined(case: &Case) -> Result<bool, String> {
    let Due::Answered(answers) = &case.due else {
        return Ok(false);
    };
    let joined = joined(case.networks.each_ref()).ok_or("the regions are not joined")?;
    // With all sites first the links keep their order.
    let random = &mut Random::new(1);
    let sheet = joined.network.sheet(Layout::SitesFirst, random);
    if joined.network.names.len() > SITES || sheet.len() > Edition::Two.bytes() {
        return Ok(false);
    }
    let mut buffer = [0; REPORT_BYTES];
    let report = waderarmoire::plan(&sheet, &mut buffer)
        .map_err(|refusal| format!("the joined sheet is refused: {refusal}"))?;
    let report = String::from_utf8_lossy(report);
    let field = |line: &str, place: usize| line.split('\t').nth(place)?.parse::<u64>().ok();
    let total = report.lines().next().and_then(|line| field(line, 1));
    let links = report.lines().filter(|line| line.starts_with("L\t"));
    let trimmed: Vec<_> = links.map(|line| field(line, 4)).collect();
    let is_same = answers.iter().zip(&joined.links).all(|(answer, links)| {
        let planned = links.iter().map(|&link| trimmed[link]);
        planned.eq(answer.sizes.iter().map(|&size| Some(size)))
    });
    if is_same && total == Some(answers[0].sum + answers[1].sum) {
        Ok(true)
    } else {
        Err("the plan of the joined sheet has other sizes, or another total".to_string())
    }
}

/// What occurred in the pairs.
#[derive(Default)]
struct Tally {
    /// How many pairs are planned as a joined sheet.
    joined: u64,
    /// How many break each of the conditions alone.
    broken: [u64; Broken::ALL.len()],
    /// How many have their first sheet refused, and their second.
    refused: [u64; 2],
    /// How many times 9 was told of the first region, and of the second.
    short: [u64; 2],
    /// How many have a marked site on the shared link.
    marked: u64,
    /// How many have more sites together than a sheet may have.
    large: u64,
    /// How many steps of a region by itself were compared, and how many of these got 18.
    steps: [u64; 2],
}

impl Tally {
    fn counts(&mut self) -> impl Iterator<Item = &mut u64> {
        [&mut self.joined, &mut self.marked, &mut self.large]
            .into_iter()
            .chain(&mut self.broken)
            .chain(&mut self.refused)
            .chain(&mut self.short)
            .chain(&mut self.steps)
    }

    fn see(&mut self, case: &Case) {
        match (case.kind, &case.due) {
            (Kind::Broken(broken), _) => self.broken[broken as usize] += 1,
            (Kind::Refused, &Due::Refused(sheet, ..)) => self.refused[usize::from(sheet) - 1] += 1,
            _ => (),
        }
        let Some(joined) = joined(case.networks.each_ref()).filter(|_| case.kind == Kind::Shared)
        else {
            return;
        };
        let is_shared = |link: &&usize| joined.links[1].contains(link);
        let shared = joined.links[0].iter().find(is_shared);
        let sites = shared.map(|&link| joined.network.links[link]);
        let is_marked = sites.is_some_and(|sites| sites.iter().any(|&it| joined.network.marks[it]));
        self.marked += u64::from(is_marked);
        self.large += u64::from(joined.network.names.len() > SITES);
    }

    /// Whether everything occurred in enough of so many pairs.
    fn has_shares(&self, count: u64) -> bool {
        let [joined, broken, refused, short, marked, large] =
            LEAST_SHARES.map(|share| count / share);
        self.joined >= joined
            && self.broken.iter().all(|&pairs| pairs >= broken)
            && self.refused.iter().all(|&pairs| pairs >= refused)
            && self.short.iter().all(|&pairs| pairs >= short)
            && self.marked >= marked
            && self.large >= large
    }
}

/// What a thread keeps.
struct Kept {
    lists: Lists,
    refused: Vec<Refused>,
    tally: Tally,
}

impl Kept {
    fn new() -> Self {
        Kept {
            lists: Lists::new(),
            refused: refused(),
            tally: Tally::default(),
        }
    }

    /// Compares the planners on a pair with lists of some lengths, the steps of its regions, and the plan of the
    /// joined sheet.
    fn compare(&mut self, case: &Case, random: &mut Random) -> Result<(), String> {
        let [one, other] = case.links();
        let longer = [one, other].map(|links| random.between(links, LIST_PLACES));
        let shorter = [one, other].map(|links| random.below(links));
        for places in [
            [one, other],
            longer,
            [one - 1, longer[1]],
            [longer[0], other - 1],
            [shorter[0], shorter[1]],
        ] {
            compare(&mut self.lists, &case.sheets, &case.due, places)?;
            if let (Due::Answered(_), Due::Refused(sheet, ..)) =
                (&case.due, case.due.with_places(places))
            {
                self.tally.short[usize::from(sheet) - 1] += 1;
            }
        }
        let steps = steps::compare(&mut self.lists, case, random)?;
        for (count, more) in self.tally.steps.iter_mut().zip(steps) {
            *count += more;
        }
        self.tally.joined += u64::from(compare_joined(case)?);
        self.tally.see(case);
        Ok(())
    }

    fn compare_index(&mut self, seed: u64, index: u64) -> Result<(), Different> {
        let case = case(seed, index, &self.refused);
        let mut random = Random::new(seed ^ index.rotate_left(32));
        self.compare(&case, &mut random)
            .map_err(|what| different(&case.sheets, indexed::told("pair", seed, index, &what)))
    }
}

pub fn different([one, other]: &[Vec<u8>; 2], what: String) -> Different {
    Different {
        sheet: one.clone(),
        other: ("sheet2", other.clone()),
        what,
    }
}

/// Both planners on the pairs with answers written by hand, and on all small pairs.
pub fn small() -> Result<(), Different> {
    let mut kept = Kept::new();
    for tried in &TRIED {
        let sheets = tried.sheets();
        let due = due_by_hand(&tried.text());
        compare(&mut kept.lists, &sheets, &due, [LIST_PLACES; 2])
            .map_err(|what| different(&sheets, format!("{}: {what}", tried.title)))?;
    }
    let random = &mut Random::new(1);
    let mut see = |case: &Case| {
        kept.compare(case, random)
            .map_err(|what| different(&case.sheets, what))
    };
    let plain = every_small_pair(4, false, &mut see)?;
    let marked = every_small_pair(3, true, &mut see)?;
    println!(
        "regions: {} pairs with answers written by hand; {plain} of 2 to 4 sites and {marked} of 2 or 3 with all \
         sets of marks, against the joined tree and its plan",
        TRIED.len()
    );
    Ok(())
}

/// What is due by a text written by hand.
fn due_by_hand(text: &[u8]) -> Due {
    let text = String::from_utf8_lossy(text);
    let mut answers = [0, 1].map(|_| sheets::joined::Answer {
        sizes: Vec::new(),
        sum: 0,
    });
    let mut region = 0;
    for line in text.lines() {
        let numbers = line.split('\t').filter_map(|field| field.parse().ok());
        let numbers: Vec<u64> = numbers.collect();
        match (line.split('\t').next(), &numbers[..]) {
            (Some("refused"), &[sheet, number, line]) => {
                return Due::Refused(sheet as u8, number as u8, line as u32);
            }
            (Some("region"), &[number, sum]) => {
                region = number as usize - 1;
                answers[region].sum = sum;
            }
            _ => answers[region].sizes.extend(numbers),
        }
    }
    Due::Answered(answers)
}

/// Compares the planners on one pair of a seed.
pub fn compare_one(seed: u64, index: u64) -> Result<(), Different> {
    Kept::new().compare_index(seed, index)
}

/// Compares the planners on the first `count` pairs of a seed.
pub fn compare_all(seed: u64, count: u64) -> Result<(), Different> {
    let start = Instant::now();
    let compare = |kept: &mut Kept, index| kept.compare_index(seed, index);
    let kept = indexed::compare_all([seed, count], "pair", Kept::new, compare)?;
    let mut tally = Tally::default();
    for mut kept in kept {
        for (count, more) in tally.counts().zip(kept.tally.counts()) {
            *count += *more;
        }
    }
    println!(
        "random pairs of regions: {count} of seed {seed} in {:.1} s, {} planned as one too; {} steps of a region by \
         itself, {} of them 18",
        start.elapsed().as_secs_f64(),
        tally.joined,
        tally.steps[0],
        tally.steps[1]
    );
    println!(
        "  18 for one reason alone: {:?}; refused for the first sheet, the second: {:?}; 9 for the first list, the \
         second: {:?}; a mark on the shared link: {}; more sites than a sheet may have: {}",
        tally.broken, tally.refused, tally.short, tally.marked, tally.large
    );
    if count >= ENOUGH_FOR_SHARES && !tally.has_shares(count) {
        let what = "too few pairs of one kind".to_string();
        return Err(different(&[Vec::new(), Vec::new()], what));
    }
    Ok(())
}
