//! The proved library on the sheets to try of the scope document and the cards, against answers
//! written out by hand.

use sheets::Edition;
use sheets::tried::{ACCEPTED, largest_sums, largest_sums_printed, refused, star};
use sheets::whole::TRIED;
use waderarmoire::{REPORT_BYTES, Refusal, SITES, order, plan, ranges, whole};

type Planner = for<'buffer> fn(&[u8], &'buffer mut [u8]) -> Result<&'buffer [u8], Refusal>;
const PLANNERS: [Planner; 2] = [plan, whole];

/// The report of a sheet that is accepted; the bytes past it must keep their values.
fn report(planner: Planner, sheet: &[u8]) -> Vec<u8> {
    let mut buffer = [0xee; REPORT_BYTES];
    let report = planner(sheet, &mut buffer).expect("a tree").to_vec();
    assert!(buffer[report.len()..].iter().all(|&byte| byte == 0xee));
    report
}

#[test]
fn reports() {
    for tried in &ACCEPTED {
        let report = report(plan, &tried.sheet());
        assert_eq!(report, tried.report(), "{}", tried.title);
    }
}

#[test]
fn largest_numbers() {
    for edition in Edition::ALL {
        let report = report(plan, &largest_sums(edition));
        let [start, set, end] = largest_sums_printed(edition);
        assert!(report.starts_with(&[b"plan", start].concat()) && report.ends_with(end));
        assert!(report.windows(set.len()).any(|part| part == set));
    }
}

#[test]
fn most_sites() {
    for edition in Edition::ALL {
        // Sizes from 2 up: no link is larger than all others together, so nothing is trimmed.
        let total: usize = (2..=edition.sites()).sum();
        let heading = format!("plan\t{total}\t");
        assert!(report(plan, &star(edition)).starts_with(heading.as_bytes()));
        let mut list = [0; SITES];
        let sites = order(&star(edition), &mut list).expect("a tree").len();
        assert_eq!(sites, edition.sites());
    }
}

#[test]
fn reports_in_whole_circuits() {
    for tried in &TRIED {
        let report = report(whole, &tried.sheet());
        assert!(tried.agrees(&report), "{}", tried.title);
    }
}

#[test]
fn reports_on_ranges() {
    for tried in &sheets::ranges::TRIED {
        let due = tried.text();
        for length in [REPORT_BYTES, due.len(), due.len() - 1] {
            let mut buffer = vec![0xee; length];
            let text = match ranges(&tried.sheet(), &mut buffer) {
                Ok(report) => report.to_vec(),
                Err(Refusal { number: 9, line: 0 }) if length < due.len() => due.clone(),
                Err(Refusal { number, line }) => format!("refused\t{number}\t{line}\n").into(),
            };
            assert_eq!(text, due, "{}", tried.title);
        }
    }
}

#[test]
fn refusals() {
    for tried in refused() {
        let expected = Refusal {
            number: tried.number,
            line: tried.line,
        };
        for planner in PLANNERS {
            for length in [REPORT_BYTES, 0] {
                let mut buffer = vec![0xee; length];
                assert_eq!(
                    planner(&tried.sheet, &mut buffer),
                    Err(expected),
                    "{}",
                    tried.title
                );
                assert!(buffer.iter().all(|&byte| byte == 0xee));
            }
        }
    }
}

#[test]
fn orders() {
    for tried in &sheets::order::TRIED {
        let length = tried.order.len();
        for places in [length, length + 1, SITES] {
            let mut list = vec![usize::MAX; places];
            assert_eq!(order(&tried.sheet(), &mut list), Ok(tried.order));
            assert!(list[length..].iter().all(|&place| place == usize::MAX));
        }
        for places in 0..length {
            let mut list = vec![usize::MAX; places];
            let too_short = Refusal { number: 9, line: 0 };
            assert_eq!(order(&tried.sheet(), &mut list), Err(too_short));
            assert!(list.iter().all(|&place| place == usize::MAX));
        }
    }
}

#[test]
fn orders_refused() {
    for tried in refused() {
        let expected = Refusal {
            number: tried.number,
            line: tried.line,
        };
        for places in [0, 1, SITES] {
            let mut list = vec![usize::MAX; places];
            let outcome = order(&tried.sheet, &mut list);
            assert_eq!(outcome, Err(expected), "{}", tried.title);
            assert!(list.iter().all(|&place| place == usize::MAX));
        }
    }
}

#[test]
fn buffers() {
    let too_long = Refusal { number: 9, line: 0 };
    for tried in &ACCEPTED {
        for planner in PLANNERS {
            let due = report(planner, &tried.sheet());
            let mut exact = vec![0; due.len()];
            assert_eq!(planner(&tried.sheet(), &mut exact), Ok(due.as_slice()));
            for shorter in [0, 1, due.len() - 1] {
                let mut buffer = vec![0xee; shorter];
                assert_eq!(planner(&tried.sheet(), &mut buffer), Err(too_long));
                assert!(buffer.iter().all(|&byte| byte == 0xee));
            }
        }
    }
}
