//! Plans drawn by hand, against answers written out and those due by the words of the card.

use second::{Judged, Outcome, REPORT_BYTES, judge, plan, whole};
use sheets::drawn::{Due, due};
use sheets::judged::TRIED;
use sheets::plans::{Case, case, every_small_plan, longest_plan, report_lines};
use sheets::tried::{ACCEPTED, refused};
use sheets::{Random, SHAPES, SITES};

/// What is answered.
fn judged(sheet: &[u8], plan: &[u8]) -> Due {
    let answer = judge(sheet, plan);
    let told = match answer {
        Judged::Accepted { total, is_largest } => Due::Judged(total, is_largest),
        Judged::Refused { text, number, line } => Due::Refused(text, number, line),
    };
    assert_eq!(answer.line(), told.line());
    told
}

/// The report of an accepted sheet.
fn report(planner: fn(&[u8], &mut [u8]) -> Outcome, sheet: &[u8]) -> Vec<u8> {
    let mut buffer = vec![0; REPORT_BYTES];
    match planner(sheet, &mut buffer) {
        Outcome::Report { length } => buffer[..length].to_vec(),
        Outcome::Refused { .. } => panic!("the sheet is accepted"),
    }
}

/// The total in the heading of a report.
fn total(report: &[u8]) -> u64 {
    let text = String::from_utf8_lossy(report);
    let field = text.split('\t').nth(1).expect("a heading has a total");
    field.parse().expect("a total is a number")
}

#[test]
fn answers_written_by_hand() {
    for tried in &TRIED {
        let (sheet, plan) = (tried.sheet(), tried.plan());
        assert_eq!(judged(&sheet, &plan), tried.due, "{}", tried.title);
    }
}

/// The pairs of the report in halves are the largest, those in whole circuits if they have the same total.
#[test]
fn plans_of_reports() {
    for tried in &ACCEPTED {
        let sheet = tried.sheet();
        let halves = report(plan, &sheet);
        let in_halves = judged(&sheet, &report_lines(&halves));
        assert_eq!(
            in_halves,
            Due::Judged(total(&halves), true),
            "{}",
            tried.title
        );
        let circuits = report(whole, &sheet);
        let in_circuits = judged(&sheet, &report_lines(&circuits));
        let is_largest = total(&circuits) == total(&halves);
        assert_eq!(in_circuits, Due::Judged(total(&circuits), is_largest));
    }
}

#[test]
fn refused_sheets() {
    for tried in refused() {
        let due = Due::Refused(1, tried.number, tried.line);
        for plan in [&b""[..], b"P\ta\tb\t1\n", b"x", &[b'\n'; 5_000]] {
            assert_eq!(judged(&tried.sheet, plan), due, "{}", tried.title);
        }
    }
}

#[test]
fn plans_at_the_limits() {
    let sheet = TRIED[0].sheet();
    for (plan, number, line) in [
        (vec![b'\n'; 1_024], 2, 1),
        (vec![b'\n'; 1_025], 1, 0),
        ([&[b'\n'; 1_023][..], b"P"].concat(), 2, 1),
        ([&[b'\n'; 1_024][..], b"P"].concat(), 1, 0),
        (vec![b'P'; 65_536], 2, 1),
        (vec![b'P'; 65_537], 1, 0),
        ([b"P\ta\tb\t", &[b'9'; 65_529][..], b"\n"].concat(), 3, 1),
        ([b"P\ta\tb\t", &[b'9'; 65_530][..], b"\n"].concat(), 1, 0),
    ] {
        assert_eq!(judged(&sheet, &plan), Due::Refused(2, number, line));
    }
    for shape in SHAPES {
        let Some(case) = longest_plan(shape, SITES, &mut Random::new(1)) else {
            continue;
        };
        let due = due(&case.network, &case.plan);
        assert!(matches!(due, Due::Judged(_, false)));
        assert_eq!(judged(&case.sheet, &case.plan), due);
        let more = [&case.plan[..], b"P\ta\tb\t1\n"].concat();
        assert_eq!(judged(&case.sheet, &more), Due::Refused(2, 1, 0));
    }
}

/// Compares the answer to a case with that due.
fn compare(case: &Case) -> Result<(), String> {
    let due = due(&case.network, &case.plan);
    let told = judged(&case.sheet, &case.plan);
    if told == due {
        return Ok(());
    }
    let plan = String::from_utf8_lossy(&case.plan);
    Err(format!("{told:?} where {due:?} is due of {plan}"))
}

#[test]
fn every_plan_of_three_lines() {
    let count = every_small_plan(3, compare);
    assert_eq!(count, Ok(7 * (17 * 17 * 17 + 17 * 17 + 17 + 1 + 16 * 307)));
}

#[test]
fn random_plans() {
    for index in 0..4_000 {
        let (case, _) = case(6, index, |sheet| report(plan, sheet));
        assert_eq!(compare(&case), Ok(()), "plan {index}");
    }
}
