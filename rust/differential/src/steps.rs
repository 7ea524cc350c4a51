//! The two steps by which a region does without its neighbour's sheet.

use crate::regions::{LIST_PLACES, Lists, answer};
use second::{Answer, Refusal};
use sheets::cases::in_either_case;
use sheets::joined::{self, Due, answer_due, far_sites, first_due, shared_alone};
use sheets::neighbours::{Case, Kind};
use sheets::{Network, Random, SIZE};

/// What is told of names between which no link can be shared.
const NO_SHARED_LINK: Refusal = Refusal {
    number: 18,
    line: 0,
};

/// Two names, and a number of the neighbour.
type Told = ([Vec<u8>; 2], u64);

/// Compares the planners on steps of both regions of a case; returns how many, and how many of these got 18.
pub fn compare(lists: &mut Lists, case: &Case, random: &mut Random) -> Result<[u64; 2], String> {
    let mut counts = [0; 2];
    for region in 0..2 {
        for number in 0..2 {
            let (names, number) = match shared(case, region).filter(|_| number == 0) {
                Some(told) => told,
                None => any(case, random),
            };
            let names = names.each_ref().map(|name| &name[..]);
            let is_alone =
                compare_one(lists, case, region, names, number, random).map_err(|what| {
                    let names = names.map(String::from_utf8_lossy);
                    format!("sheet {}, {names:?}, {number}: {what}", region + 1)
                })?;
            counts[0] += 2;
            counts[1] += 2 * u64::from(!is_alone);
        }
    }
    check_exchange(case)?;
    Ok(counts)
}

/// What is due of the two steps of a region.
struct StepsDue {
    first: Result<u64, Refusal>,
    answer: Result<joined::Answer, Refusal>,
}

/// What is due of the steps of one region. It is not known of a second sheet where the first is refused.
fn due(case: &Case, region: usize, names: [&[u8]; 2], number: u64) -> Option<StepsDue> {
    if case.kind == Kind::Refused {
        return match case.due {
            Due::Refused(sheet, number, line) if usize::from(sheet) == region + 1 => {
                Some(StepsDue {
                    first: Err(Refusal { number, line }),
                    answer: Err(Refusal { number, line }),
                })
            }
            _ => None,
        };
    }
    let network = &case.networks[region];
    Some(StepsDue {
        first: first_due(network, names).ok_or(NO_SHARED_LINK),
        answer: answer_due(network, names, number).ok_or(NO_SHARED_LINK),
    })
}

/// Compares the planners on both steps of a region; whether neither gets 18.
fn compare_one(
    lists: &mut Lists,
    case: &Case,
    region: usize,
    names: [&[u8]; 2],
    number: u64,
    random: &mut Random,
) -> Result<bool, String> {
    let sheet = &case.sheets[region];
    let due = due(case, region, names, number);
    let first = waderarmoire::region_first(sheet, names).map_err(refusal);
    let by_second = second::first_step(sheet, names);
    if first != by_second {
        return Err(format!(
            "first step: the proved planner answers {first:?}, the second {by_second:?}"
        ));
    }
    if let Some(StepsDue { first: due, .. }) = due
        && first != due
    {
        return Err(format!(
            "first step: both planners answer {first:?} where {due:?} is due"
        ));
    }
    let due = due.map(|due| due.answer);
    let links = case.links()[region];
    let longer = random.between(links, LIST_PLACES);
    for places in [links, longer, links - 1, random.below(links)] {
        second_step(lists, sheet, names, number, places, due.as_ref())
            .map_err(|what| format!("second step, list of {places}: {what}"))?;
    }
    Ok(first != Err(NO_SHARED_LINK) && due != Some(Err(NO_SHARED_LINK)))
}

/// Compares the planners on the second step with a list of so many places.
fn second_step(
    lists: &mut Lists,
    sheet: &[u8],
    names: [&[u8]; 2],
    number: u64,
    places: usize,
    due: Option<&Result<joined::Answer, Refusal>>,
) -> Result<(), String> {
    let [list, other_list] = lists.lend(places);
    let region = waderarmoire::region_answer(sheet, names, number, list);
    let proved = region.map(answer).map_err(refusal);
    let second = second::second_step(sheet, names, number, other_list);
    if proved != second {
        return Err(format!(
            "the proved planner answers {proved:?}, the second {second:?}"
        ));
    }
    let Some(due) = due else {
        // The sheet is no part of what is known of the case: the lists are compared with each other.
        let [list, other_list] = lists.lend(LIST_PLACES);
        let sizes = list[..proved.map_or(0, |answer| answer.count)].to_vec();
        if list != other_list {
            return Err("the lists of the planners differ".to_string());
        }
        return lists.check([&sizes, &[]]);
    };
    let (outcome, sizes) = match due {
        Ok(answer) if answer.sizes.len() > places => (Err(Refusal { number: 9, line: 0 }), &[][..]),
        Ok(answer) => {
            let told = Answer {
                count: answer.sizes.len(),
                sum: answer.sum,
            };
            (Ok(told), &answer.sizes[..])
        }
        Err(refusal) => (Err(*refusal), &[][..]),
    };
    if proved != outcome {
        return Err(format!(
            "both planners answer {proved:?} where {outcome:?} is due"
        ));
    }
    lists.check([sizes, &[]])
}

/// The refusal of the proved planner.
fn refusal(waderarmoire::Refusal { number, line }: waderarmoire::Refusal) -> Refusal {
    Refusal { number, line }
}

/// Checks that the two steps give each region of an accepted pair just what both sheets together give it.
fn check_exchange(case: &Case) -> Result<(), String> {
    let Due::Answered(answers) = &case.due else {
        return Ok(());
    };
    for (region, answer) in answers.iter().enumerate() {
        let (names, number) = shared(case, region).ok_or("the regions share no link")?;
        let names = names.each_ref().map(|name| &name[..]);
        let mut list = [0; LIST_PLACES];
        let given = waderarmoire::region_answer(&case.sheets[region], names, number, &mut list);
        let is_same = given.is_ok_and(|it| it.sizes == answer.sizes && it.sum == answer.sum);
        if !is_same {
            return Err(format!(
                "sheet {}: the two steps differ from both sheets together",
                region + 1
            ));
        }
    }
    Ok(())
}

/// The two shared names of an accepted pair, and the number that the neighbour of a region tells.
fn shared(case: &Case, region: usize) -> Option<Told> {
    if case.kind != Kind::Shared {
        return None;
    }
    let [one, other] = &case.networks;
    let [far, other_far] = far_sites([one, other])?;
    let names = [one.names[far].clone(), other.names[other_far].clone()];
    let neighbour = &case.sheets[1 - region];
    let number = waderarmoire::region_first(neighbour, names.each_ref().map(|name| &name[..]));
    Some((names, number.ok()?))
}

/// Two names and a number: mostly the names of a link of one of the regions, also such as are no names of it.
pub fn any(case: &Case, random: &mut Random) -> Told {
    let network = random.pick(&case.networks).clone();
    let mut names = match shared(case, 0) {
        Some((names, _)) if random.once_in(2) => names,
        _ => of_a_link(&network, random),
    };
    random.shuffle(&mut names);
    if random.once_in(2) {
        names = names.map(|name| in_either_case(&name, random));
    }
    if random.once_in(4) {
        let texts: [&[u8]; 6] = [b"", b"7", b"new", b"abcdefghijklm", b"a\tb", b"-"];
        let site = random.pick(&network.names).clone();
        let other = random.pick(&texts).to_vec();
        names[random.below(2)] = if random.once_in(2) { site } else { other };
    }
    let link = shared_alone(&network, names.each_ref().map(|name| &name[..]));
    let usable = link.map_or(SIZE, |(link, _)| network.usable_sizes()[link]);
    let within = random.between(0, usable as usize) as u64;
    let usable = u64::from(usable);
    let largest = u64::from(SIZE);
    let numbers = [
        0,
        1,
        within,
        within,
        within,
        usable,
        usable + 1,
        largest,
        largest + 1,
        u64::MAX,
    ];
    (names, *random.pick(&numbers))
}

/// The names of one of the links of a region.
fn of_a_link(network: &Network, random: &mut Random) -> [Vec<u8>; 2] {
    random
        .pick(&network.links)
        .map(|site| network.names[site].clone())
}
