//! Every error planted in the reading or the spelling of names, in reserves, in marks, in editions, or in bare
//! numbers as names gives another answer than that written out by hand on one of the sheets to try.

#![cfg(feature = "planted")]

use second::planted::{ERRORS, Error, plant};
use second::{Outcome, REPORT_BYTES, SITES, order, plan, whole};
use sheets::Edition;
use sheets::tried::{ACCEPTED, largest_sums, largest_sums_printed, refused};
use sheets::whole::TRIED;

type Planner = fn(&[u8], &mut [u8]) -> Outcome;

/// Whether all answers are those written out by hand.
fn all_as_written() -> bool {
    let mut buffer = vec![0; REPORT_BYTES];
    let mut report = |planner: Planner, sheet: &[u8]| match planner(sheet, &mut buffer) {
        Outcome::Report { length } => Ok(buffer[..length].to_vec()),
        Outcome::Refused { number, line } => Err((number, line)),
    };
    ACCEPTED
        .iter()
        .all(|tried| report(plan, &tried.sheet()) == Ok(tried.report()))
        && refused()
            .iter()
            .all(|tried| report(plan, &tried.sheet) == Err((tried.number, tried.line)))
        && TRIED
            .iter()
            .all(|tried| report(whole, &tried.sheet()).is_ok_and(|report| tried.agrees(&report)))
        && sheets::order::TRIED.iter().all(|tried| {
            let mut list = [0; SITES];
            let length = tried.order.len();
            order(&tried.sheet(), &mut list) == Outcome::Report { length }
                && list[..length] == *tried.order
        })
        && Edition::ALL.into_iter().all(|edition| {
            let [start, _, end] = largest_sums_printed(edition);
            report(plan, &largest_sums(edition)).is_ok_and(|report| {
                report.starts_with(&[b"plan", start].concat()) && report.ends_with(end)
            })
        })
}

#[test]
fn errors_of_sheets_are_errors() {
    assert!(all_as_written());
    let number = |error: Error| error as usize;
    let of_names_and_reserves = number(Error::TypedNames)..number(Error::FirstLinkOnly);
    let of_marks = number(Error::MarkedTrimmed)..number(Error::AcrossAccepted);
    let of_editions = number(Error::SecondForAll)..number(Error::PairsByByte);
    let of_bare_numbers = number(Error::BareAccepted)..number(Error::BareInLogUnknown);
    let of_cards = of_names_and_reserves.chain(of_marks).chain(of_editions);
    for number in of_cards.chain(of_bare_numbers) {
        let error = ERRORS[number - 1];
        plant(error);
        assert!(!all_as_written(), "{error:?}");
    }
}
