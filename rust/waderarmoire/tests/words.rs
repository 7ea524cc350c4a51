//! The words of the refusals come from the library, which is proved to write those of its one table; here that each
//! kind of refusal asks for its own.

use waderarmoire::{JudgeRefusal, Refusal, RegionsRefusal, ReplayRefusal};

#[test]
fn of_a_sheet() {
    let words = |number, line| Refusal { number, line }.to_string();
    assert_eq!(
        words(8, 0),
        "the sheet: fewer than two sites, or not all sites are joined"
    );
    assert_eq!(words(5, 3), "line 3: name already given to a site");
    assert_eq!(
        words(9, 0),
        "the sheet: answer longer than the buffer or list for it"
    );
    assert_eq!(words(20, 1), "line 1: a cause without words");
}

#[test]
fn of_a_replay() {
    let words = |text, number, line| ReplayRefusal { text, number, line }.to_string();
    assert_eq!(
        words(1, 5, 3),
        "the sheet, line 3: name already given to a site"
    );
    assert_eq!(
        words(2, 1, 0),
        "the log: more than 65,536 bytes, or than 4,096 lines"
    );
    assert_eq!(
        words(2, 9, 0),
        "the log: more lines than places for answers"
    );
}

#[test]
fn of_two_regions() {
    let words = |sheet, number, line| {
        RegionsRefusal {
            sheet,
            number,
            line,
        }
        .to_string()
    };
    assert_eq!(words(0, 18, 0), "the two sheets do not share one link");
    assert_eq!(
        words(2, 5, 3),
        "sheet 2, line 3: name already given to a site"
    );
    assert_eq!(
        words(1, 9, 0),
        "sheet 1: answer longer than the buffer or list for it"
    );
}

#[test]
fn of_a_judgement() {
    let words = |text, number, line| JudgeRefusal { text, number, line }.to_string();
    assert_eq!(
        words(1, 8, 0),
        "the sheet: fewer than two sites, or not all sites are joined"
    );
    assert_eq!(
        words(2, 20, 2),
        "the plan, line 2: pair given on an earlier line"
    );
    assert_eq!(
        words(2, 21, 0),
        "the plan: a load above twice the usable size of its link"
    );
}
