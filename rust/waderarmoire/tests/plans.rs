//! The proved library on plans drawn by hand, against answers written out and those due by the words of the card.

use sheets::drawn::{Due, due};
use sheets::judged::TRIED;
use sheets::plans::{case, longest_plan};
use sheets::tried::refused;
use sheets::{Random, SHAPES, SITES};
use std::env;
use std::thread::Builder;
use waderarmoire::{JudgeRefusal, Judgement, REPORT_BYTES, STACK_BYTES, judge, plan};

fn judged(sheet: &[u8], plan: &[u8]) -> Due {
    match judge(sheet, plan) {
        Ok(Judgement { total, is_largest }) => Due::Judged(total, is_largest),
        Err(JudgeRefusal { text, number, line }) => Due::Refused(text, number, line),
    }
}

#[test]
fn answers_written_by_hand() {
    for tried in &TRIED {
        let answer = judged(&tried.sheet(), &tried.plan());
        assert_eq!(answer, tried.due, "{}", tried.title);
    }
}

#[test]
fn refused_sheets() {
    for tried in refused() {
        let due = Due::Refused(1, tried.number, tried.line);
        for plan in [&b""[..], b"P\ta\tb\t1\n", &[b'\n'; 5_000]] {
            assert_eq!(judged(&tried.sheet, plan), due, "{}", tried.title);
        }
    }
}

#[test]
fn random_plans() {
    let report = |sheet: &[u8]| {
        let mut buffer = vec![0; REPORT_BYTES];
        plan(sheet, &mut buffer).expect("it is accepted").to_vec()
    };
    for index in 0..600 {
        let (case, _) = case(2, index, report);
        let due = due(&case.network, &case.plan);
        assert_eq!(judged(&case.sheet, &case.plan), due, "plan {index}");
    }
}

/// The longest plans over the largest trees of every shape that has so many pairs, in threads with little stack.
/// The variable `STACK` sets another number of bytes: the least with which this test passes is what a judgement
/// needs.
#[test]
fn little_stack() {
    let given = env::var("STACK").map(|text| text.parse().expect("a number of bytes"));
    let stack = given.unwrap_or(STACK_BYTES);
    let cases = SHAPES.map(|shape| longest_plan(shape, SITES, &mut Random::new(1)));
    for case in cases.into_iter().flatten() {
        let due = due(&case.network, &case.plan);
        let thread = Builder::new()
            .stack_size(stack)
            .spawn(move || judged(&case.sheet, &case.plan));
        assert_eq!(thread.unwrap().join().unwrap(), due);
    }
}

#[test]
fn words() {
    let words = |text, number, line| JudgeRefusal { text, number, line }.to_string();
    assert_eq!(
        words(1, 5, 3),
        "the sheet, line 3: name already given to a site"
    );
    assert_eq!(
        words(2, 1, 0),
        "the plan: more than 65,536 bytes, or than 1,024 lines"
    );
    assert_eq!(
        words(2, 20, 7),
        "the plan, line 7: pair given on an earlier line"
    );
    assert_eq!(
        words(2, 21, 0),
        "the plan: a load above twice the usable size of its link"
    );
    assert_eq!(words(2, 17, 1), "the plan, line 1: name of digits only");
}
