//! Every error planted in the judging of plans gives another answer than that due by the words of the card on one
//! of the first random plans.

#![cfg(feature = "planted")]

use second::planted::{ERRORS, Error, plant};
use second::{Outcome, REPORT_BYTES, judge, plan};
use sheets::drawn::due;
use sheets::plans::{Case, case};

/// So many plans are tried.
const PLANS: u64 = 1_500;

fn report(sheet: &[u8]) -> Vec<u8> {
    let mut buffer = vec![0; REPORT_BYTES];
    match plan(sheet, &mut buffer) {
        Outcome::Report { length } => buffer[..length].to_vec(),
        Outcome::Refused { .. } => panic!("the sheet is accepted"),
    }
}

#[test]
fn errors_of_plans_are_errors() {
    let with_due = |case: Case| {
        let due = due(&case.network, &case.plan).line();
        (case, due)
    };
    let cases: Vec<(Case, String)> = (0..PLANS)
        .map(|index| with_due(case(1, index, report).0))
        .collect();
    let is_right = |(case, due): &(Case, String)| judge(&case.sheet, &case.plan).line() == *due;
    assert!(cases.iter().all(is_right));
    for &error in &ERRORS[Error::FitIsLargest as usize - 1..Error::LargestUntrimmed as usize] {
        plant(error);
        let found = cases.iter().position(|case| !is_right(case));
        assert!(found.is_some(), "{error:?}");
        println!("{error:?}: plan {}", found.unwrap_or_default());
    }
}
