//! Sheets of both editions, at their limits, against what is due by the words of the card; and the answers of a
//! planner from before it.

use second::{Edition, Outcome, REPORT_BYTES, order_lines, plan, plan_knowing, whole};
use sheets::cases::Due;
use sheets::tried::{ACCEPTED, refused};
use sheets::{Layout, Network, Random, headings};

/// The outcome of a planner, and its report; on a refusal the buffer must keep its values.
fn answer(planner: impl Fn(&[u8], &mut [u8]) -> Outcome, sheet: &[u8]) -> Due {
    let mut buffer = vec![0xee; REPORT_BYTES];
    match planner(sheet, &mut buffer) {
        Outcome::Report { length } => {
            buffer.truncate(length);
            Due::Report(buffer)
        }
        Outcome::Refused { number, line } => {
            assert!(buffer.iter().all(|&byte| byte == 0xee));
            Due::Refused(number, line)
        }
    }
}

#[test]
fn every_heading_and_length() {
    let count = headings::every_sheet(|sheet, due| {
        let first = String::from_utf8_lossy(&sheet[..sheet.len().min(40)]);
        assert_eq!(
            answer(plan, sheet),
            *due,
            "{} bytes, {first:?}",
            sheet.len()
        );
        assert_eq!(answer(whole, sheet), due.in_whole_circuits());
        Ok::<(), ()>(())
    });
    assert_eq!(count, Ok(44 * (8 + 8 * 11)));
}

#[test]
fn every_number_of_sites_at_the_limits() {
    let mut accepted = 0;
    let mut above_edition_1 = 0;
    let count = headings::every_tree(|network, sheet, refusal| {
        for planner in [plan, whole, order_lines] {
            match (answer(planner, sheet), refusal) {
                (Due::Report(_), None) => (),
                (Due::Refused(number, line), Some(due)) => assert_eq!((number, line), due),
                (answer, due) => panic!("{} sites: {answer:?}, {due:?}", network.names.len()),
            }
        }
        accepted += usize::from(refusal.is_none());
        above_edition_1 += usize::from(refusal.is_none() && sheet.len() > Edition::ONE.bytes);
        Ok::<(), ()>(())
    });
    assert_eq!(count, Ok(9 * 10 * 2 * 2));
    assert_eq!(accepted, 9 * (3 + 7) * 2);
    assert!(above_edition_1 >= 9 * 2);
}

/// What a planner from before the card answers, which knows edition 1 alone.
fn answer_before(sheet: &[u8]) -> Due {
    answer(
        |sheet, buffer| plan_knowing(&[Edition::ONE], sheet, buffer),
        sheet,
    )
}

/// Checks a planner from before the card on a sheet: it answers as ever, but refuses the heading of edition 2
/// with 2 at line 1, or with 1 if the sheet is longer than 16,384 bytes.
fn check_before(sheet: &[u8]) {
    let due = if !sheet.starts_with(b"network\t2\n") {
        answer(plan, sheet)
    } else if sheet.len() > 16_384 {
        Due::Refused(1, 0)
    } else {
        Due::Refused(2, 1)
    };
    assert_eq!(answer_before(sheet), due);
}

#[test]
fn a_planner_from_before() {
    for tried in &ACCEPTED {
        check_before(&tried.sheet());
    }
    for tried in refused() {
        check_before(&tried.sheet);
    }
    let see = |sheet: &[u8]| {
        check_before(sheet);
        Ok::<(), ()>(())
    };
    assert!(headings::every_sheet(|sheet, _| see(sheet)).is_ok());
    assert!(headings::every_tree(|_, sheet, _| see(sheet)).is_ok());
}

/// The heading makes no difference but to the limits.
#[test]
fn the_same_under_both_headings() {
    let mut random = Random::new(8);
    for _ in 0..1_000 {
        let network = Network::any(256, &mut random);
        let sheet = network.sheet(Layout::any(&mut random), &mut random);
        let other = sheets::Edition::Two.head(&sheet).expect("it has a heading");
        for planner in [plan, whole, order_lines] {
            assert_eq!(answer(planner, &sheet), answer(planner, &other));
        }
    }
}
