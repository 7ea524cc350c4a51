//! What is due of a plan drawn by hand, by the words of its card.
//!
//! Slow and plain, and with nothing of a planner: a link lies on the path between two sites if they are no
//! longer joined without it, and the greatest total is what is left at the ends when heavy links are cut as
//! long as there is one.

use crate::Network;
use crate::joined::trimmed;
use crate::ledger::{Ledger, lines};
use std::collections::BTreeMap;

/// The longest plan that is judged, in bytes.
pub const PLAN_BYTES: usize = 65_536;
/// The most lines a plan may have.
pub const PLAN_LINES: usize = 1_024;

/// What is due of a plan.
#[derive(Clone, Copy, Debug, PartialEq, Eq)]
pub enum Due {
    /// The total in halves, and whether no fitting plan has a greater one.
    Judged(u64, bool),
    /// The text, the number and the line of the refusal.
    Refused(u8, u8, u32),
}

impl Due {
    /// The line that a program prints.
    #[must_use]
    pub fn line(self) -> String {
        match self {
            Due::Judged(total, true) => format!("judged\t{total}\tyes\n"),
            Due::Judged(total, false) => format!("judged\t{total}\tno\n"),
            Due::Refused(text, number, line) => format!("refused\t{text}\t{number}\t{line}\n"),
        }
    }
}

/// Whether a plan is refused as a whole, whatever its lines are.
#[must_use]
pub fn is_too_long(plan: &[u8]) -> bool {
    plan.len() > PLAN_BYTES || lines(plan).count() > PLAN_LINES
}

/// The greatest total of a fitting plan, in halves.
#[must_use]
pub fn greatest_total(network: &Network) -> u64 {
    let trimmed = trimmed(network);
    let ends = (0..network.names.len()).filter(|&site| network.is_end(site));
    let around = network.around();
    let at_ends = ends.flat_map(|end| &around[end]);
    at_ends.map(|&(link, _)| trimmed[link]).sum()
}

/// What is due of a plan over the network of an accepted sheet.
#[must_use]
pub fn due(network: &Network, plan: &[u8]) -> Due {
    if is_too_long(plan) {
        return Due::Refused(2, 1, 0);
    }
    let ledger = Ledger::new(network);
    let mut given: BTreeMap<[usize; 2], u64> = BTreeMap::new();
    for ((line, is_ended), place) in lines(plan).zip(1..) {
        match ledger.request(line, is_ended, &[b"P"]) {
            Err(number) => return Due::Refused(2, number as u8, place),
            Ok((_, sites, halves)) => {
                if given.insert(sites, halves).is_some() {
                    return Due::Refused(2, 20, place);
                }
            }
        }
    }
    let mut loads = vec![0; network.links.len()];
    for (&sites, halves) in &given {
        for link in ledger.path(sites) {
            loads[link] += halves;
        }
    }
    if (0..loads.len()).any(|link| loads[link] > ledger.most(link)) {
        return Due::Refused(2, 21, 0);
    }
    let total = given.values().sum();
    Due::Judged(total, total == greatest_total(network))
}
