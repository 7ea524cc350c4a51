//! Sheets that hold the same records in other orders: their reports agree as the card says.

use second::{Outcome, REPORT_BYTES, plan, whole};
use sheets::shuffled::{Agreed, case, total};

fn report(planner: fn(&[u8], &mut [u8]) -> Outcome, sheet: &[u8]) -> Vec<u8> {
    let mut buffer = vec![0; REPORT_BYTES];
    match planner(sheet, &mut buffer) {
        Outcome::Report { length } => buffer[..length].to_vec(),
        Outcome::Refused { number, line } => panic!("refused with {number} at line {line}"),
    }
}

#[test]
fn same_records() {
    for index in 0..2_000 {
        let case = case(6, index);
        let [one, other] = case
            .sheets
            .each_ref()
            .map(|sheet| Agreed::read(&report(plan, sheet)));
        assert!(one.is_some() && one == other, "sheets {index}");
        let [one, other] = case
            .sheets
            .each_ref()
            .map(|sheet| total(&report(whole, sheet)));
        assert!(one.is_some() && one == other, "sheets {index}, whole");
    }
}

/// A report that tells something else, or something twice, does not agree.
#[test]
fn what_is_read() {
    let report = "plan 4 2\nL hub a 5 2\nL hub b 1 1\nL hub c 1 1\nN hub a\nN a a\nN b b\nN c c\n\
        X a 2 2\nX b 1 1\nX c 1 1\nP a b 2\nP a c 2\n";
    let read = |report: &str| Agreed::read(report.replace(' ', "\t").as_bytes());
    let agreed = read(report);
    assert!(agreed.is_some());
    for (from, to) in [
        ("L hub a 5 2", "L A HUB 5 2"),
        ("N hub a\nN a a\n", "N A a\nN HUB A\n"),
        ("P a b 2\nP a c 2\n", ""),
    ] {
        assert_eq!(read(&report.replace(from, to)), agreed, "{to:?}");
    }
    for (from, to) in [
        ("plan 4", "plan 3"),
        ("L hub a 5 2", "L hub a 5 3"),
        ("L hub a 5 2", "L hub a 4 2"),
        ("N hub a", "N hub -"),
        ("X a 2 2", "X a 2 1"),
        ("X a 2 2", "X a 3 2"),
        ("X c 1 1\n", ""),
        ("X c 1 1\n", "X c 1 1\nX C 1 1\n"),
    ] {
        assert_ne!(read(&report.replace(from, to)), agreed, "{to:?}");
    }
}
