//! Every error planted in what must not go by the order of lines makes the reports of two of the first random sheets
//! with the same records disagree.

#![cfg(feature = "planted")]

use second::planted::{ERRORS, Error, plant};
use second::{Outcome, REPORT_BYTES, plan};
use sheets::shuffled::{Agreed, Case, case};

/// So many pairs of sheets are tried.
const PAIRS: u64 = 600;

fn agree(case: &Case) -> bool {
    let [one, other] = case.sheets.each_ref().map(|sheet| {
        let mut buffer = vec![0; REPORT_BYTES];
        match plan(sheet, &mut buffer) {
            Outcome::Report { length } => Agreed::read(&buffer[..length]),
            Outcome::Refused { .. } => None,
        }
    });
    one.is_some() && one == other
}

#[test]
fn errors_of_orders_are_errors() {
    let cases: Vec<Case> = (0..PAIRS).map(|index| case(1, index)).collect();
    assert!(cases.iter().all(agree));
    for &error in &ERRORS[Error::CutToLinksAbove as usize - 1..Error::TurnedReserveLost as usize] {
        plant(error);
        let found = cases.iter().position(|case| !agree(case));
        assert!(found.is_some(), "{error:?}");
        println!("{error:?}: pair {}", found.unwrap_or_default());
    }
}
