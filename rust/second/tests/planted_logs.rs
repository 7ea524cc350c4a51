//! Every error planted in the replay of logs gives another answer than that due by the words of the card
//! on one of the first random logs.

#![cfg(feature = "planted")]

use second::planted::{ERRORS, Error, plant};
use second::{Replayed, replay};
use sheets::ledger::{due, is_too_long, lines};
use sheets::logs::{Case, case};

/// So many logs are tried.
const LOGS: u64 = 600;

/// What is due of a log with a list of so many places: the outcome, and the list.
fn due_with(case: &Case, due: &[u64], places: usize) -> (Replayed, Vec<u64>) {
    let mut list = vec![u64::MAX; places];
    let refused = |number| Replayed::Refused {
        text: 2,
        number,
        line: 0,
    };
    if is_too_long(&case.log) {
        return (refused(1), list);
    }
    if places < due.len() {
        return (refused(9), list);
    }
    list[..due.len()].copy_from_slice(due);
    (Replayed::Answered { count: due.len() }, list)
}

/// Whether the answers to a log are those due, with lists of several lengths.
fn is_right(case: &Case, due: &[u64]) -> bool {
    let count = lines(&case.log).count();
    let mut lengths = [count.saturating_sub(1), count, count + 3].into_iter();
    lengths.all(|places| {
        let mut list = vec![u64::MAX; places];
        let outcome = replay(&case.sheet, &case.log, &mut list);
        (outcome, list) == due_with(case, due, places)
    })
}

#[test]
fn errors_of_logs_are_errors() {
    let cases: Vec<(Case, Vec<u64>)> = (0..LOGS)
        .map(|index| case(1, index).0)
        .map(|case| (case.clone(), due(&case.network, &case.log)))
        .collect();
    assert!(cases.iter().all(|(case, due)| is_right(case, due)));
    let of_logs = &ERRORS[Error::FirstLinkOnly as usize - 1..Error::UnendedLeftOut as usize];
    let of_later_cards = [
        Error::AcrossAccepted,
        Error::PairsByByte,
        Error::BareInLogUnknown,
    ];
    for &error in of_logs.iter().chain(&of_later_cards) {
        plant(error);
        let found = cases.iter().position(|(case, due)| !is_right(case, due));
        assert!(found.is_some(), "{error:?}");
        println!("{error:?}: log {}", found.unwrap_or_default());
    }
}
