//! The order of work, inward from the ends: both planners on one sheet, and the card's rule itself.
//!
//! A link is visited once one of its sites is taken. Always the lowest-numbered untaken site with
//! at most one unvisited link is taken. Whichever such site is taken, cutting heavy links at the
//! sites inward and then back out ends in the trimmed sizes.

use crate::compare::{Answer, LIST_PLACES, Planners};
use crate::printed::{Network, demand};
use report::Lines;
use sheets::Random;

/// Compares the planners on a sheet with a list of so many places, given what is due with a list
/// that is long enough: the count of sites, or the refusal.
pub fn compare(
    planners: &mut Planners,
    sheet: &[u8],
    due: Answer<usize>,
    places: usize,
) -> Result<(), String> {
    let answer = planners.order(sheet, places)?;
    let is_right = match (answer, due) {
        (Answer::Report(order), Answer::Report(sites)) => order.len() == sites && places >= sites,
        (Answer::Refused(9, 0), Answer::Report(sites)) => places < sites,
        (Answer::Refused(number, line), Answer::Refused(due, at)) => (number, line) == (due, at),
        _ => false,
    };
    if !is_right {
        return Err(format!(
            "order, list of {places}: both planners answer {answer:?} where {due:?} is due"
        ));
    }
    Ok(())
}

/// Compares the planners on a tree. The order must follow the rule, and cutting along it and along
/// some other orders must end in the trimmed sizes that are printed.
pub fn accepted(planners: &mut Planners, sheet: &[u8], random: &mut Random) -> Result<(), String> {
    let network = Network::read(sheet)?;
    let order = order_by_rule(planners, sheet, &network)?;
    let trimmed = printed_sizes(planners, sheet, &network)?;
    ends_in(&network, &order, &trimmed)?;
    for _ in 0..OTHER_ORDERS {
        ends_in(&network, &any_order(&network, random), &trimmed)?;
    }
    Ok(())
}

/// Along so many random orders the sizes are cut.
const OTHER_ORDERS: usize = 2;

/// The same on a small tree, with all other orders.
pub fn accepted_small(planners: &mut Planners, sheet: &[u8]) -> Result<(), String> {
    let network = Network::read(sheet)?;
    order_by_rule(planners, sheet, &network)?;
    let trimmed = printed_sizes(planners, sheet, &network)?;
    every_order(&network, &mut Vec::new(), &mut |order| {
        ends_in(&network, order, &trimmed)
    })
}

/// The order of both planners, its sites counted from 0, after it is checked against the rule.
fn order_by_rule(
    planners: &mut Planners,
    sheet: &[u8],
    network: &Network,
) -> Result<Vec<usize>, String> {
    let Answer::Report(order) = planners.order(sheet, LIST_PLACES)? else {
        return Err("order: both planners refuse a tree".to_string());
    };
    let mut taken = Vec::new();
    for number in order {
        demand(
            free_sites(network, &taken).next().map(|site| site + 1) == Some(*number),
            "order: a site is not the lowest with at most one unvisited link",
        )?;
        taken.push(number - 1);
    }
    demand(
        taken.len() == network.names.len(),
        "order: not all sites are taken",
    )?;
    Ok(taken)
}

/// The untaken sites with at most one unvisited link, in ascending order.
fn free_sites(network: &Network, taken: &[usize]) -> impl Iterator<Item = usize> {
    let mut is_taken = vec![false; network.names.len()];
    for &site in taken {
        is_taken[site] = true;
    }
    (0..network.names.len()).filter(move |&site| {
        let links = network.around[site].iter();
        let unvisited = links.filter(|(_, other)| !is_taken[*other]);
        !is_taken[site] && unvisited.count() <= 1
    })
}

/// An order in which any free site is taken at each step.
fn any_order(network: &Network, random: &mut Random) -> Vec<usize> {
    let mut taken = Vec::new();
    while taken.len() < network.names.len() {
        let free: Vec<usize> = free_sites(network, &taken).collect();
        taken.push(*random.pick(&free));
    }
    taken
}

/// Calls `see` with every order that starts with the taken sites.
fn every_order(
    network: &Network,
    taken: &mut Vec<usize>,
    see: &mut impl FnMut(&[usize]) -> Result<(), String>,
) -> Result<(), String> {
    if taken.len() == network.names.len() {
        return see(taken);
    }
    let free: Vec<usize> = free_sites(network, taken).collect();
    for site in free {
        taken.push(site);
        every_order(network, taken, see)?;
        taken.pop();
    }
    Ok(())
}

/// The trimmed sizes on the lines of the report headed `plan`.
fn printed_sizes(
    planners: &mut Planners,
    sheet: &[u8],
    network: &Network,
) -> Result<Vec<u64>, String> {
    let Answer::Report(report) = planners.plan(sheet, planners.room())? else {
        return Err("both planners refuse a tree".to_string());
    };
    let mut lines = Lines { rest: report };
    lines.next::<2>("plan")?;
    let links = network.links.iter();
    links
        .map(|link| network.link_line(&mut lines, link))
        .collect()
}

/// Cuts inward along an order and back out, and compares the sizes with the trimmed ones.
fn ends_in(network: &Network, order: &[usize], trimmed: &[u64]) -> Result<(), String> {
    let mut sizes: Vec<u64> = network.links.iter().map(|link| link.usable).collect();
    for &site in order.iter().chain(order.iter().rev()) {
        cut(network, &mut sizes, site);
    }
    if sizes != trimmed {
        return Err(format!(
            "order: cutting along {order:?}, counted from 0, gives {sizes:?}"
        ));
    }
    Ok(())
}

/// Cuts a link that is heavy at a joint to the sum of the other links there.
fn cut(network: &Network, sizes: &mut [u64], site: usize) {
    let links = &network.around[site];
    let sum: u64 = links.iter().map(|&(link, _)| sizes[link]).sum();
    let heavy = links
        .iter()
        .find(|&&(link, _)| sizes[link] > sum - sizes[link]);
    if let Some(&(link, _)) = heavy
        && !network.is_end(site)
    {
        sizes[link] = sum - sizes[link];
    }
}
