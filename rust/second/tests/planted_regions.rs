//! Every error planted in regions gives another answer than that due by the words of the card on one of the first
//! random pairs.

#![cfg(feature = "planted")]

use second::planted::{ERRORS, Error, plant};
use second::{Exchanged, regions};
use sheets::joined::Due;
use sheets::neighbours::{Case, case};
use sheets::tried::refused;

/// So many pairs are tried.
const PAIRS: u64 = 600;

/// Whether the answers to a pair, and both lists, are those due, with lists of several lengths.
fn is_right(case: &Case) -> bool {
    let [one, other] = case.links();
    let lengths = [
        [one, other],
        [one - 1, other],
        [one, other - 1],
        [one - 1, other - 1],
    ];
    lengths.into_iter().all(|places| {
        let [one, other] = &case.sheets;
        let mut lists = places.map(|places| vec![u64::MAX; places]);
        let mut due_lists = lists.clone();
        let outcome = regions([one, other], lists.each_mut().map(|list| &mut list[..]));
        let is_due = match (outcome, case.due.with_places(places)) {
            (Exchanged::Answered(answers), Due::Answered(due)) => {
                for (list, due) in due_lists.iter_mut().zip(&due) {
                    list[..due.sizes.len()].copy_from_slice(&due.sizes);
                }
                answers.map(|answer| answer.sum) == due.map(|due| due.sum)
            }
            (
                Exchanged::Refused {
                    sheet,
                    number,
                    line,
                },
                due,
            ) => due == Due::Refused(sheet, number, line),
            _ => false,
        };
        is_due && lists == due_lists
    })
}

#[test]
fn errors_of_regions_are_errors() {
    let refused = refused();
    let cases: Vec<Case> = (0..PAIRS).map(|index| case(1, index, &refused)).collect();
    assert!(cases.iter().all(is_right));
    for &error in &ERRORS[Error::GreaterShared as usize - 1..Error::FarWithLinks as usize] {
        plant(error);
        let found = cases.iter().position(|case| !is_right(case));
        assert!(found.is_some(), "{error:?}");
        println!("{error:?}: pair {}", found.unwrap_or_default());
    }
}
