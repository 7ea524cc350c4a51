//! The wrong planners of docs/TEACHING.md, and the right one, print what stands on that page.
//!
//! A case of the page is a run of blocks, fields parted by spaces there: ```` ```text sheet ````, and so a second sheet, a log
//! or a plan drawn by hand; ```` ```text wrong ERROR PROGRAM ````; and ```` ```text right ````. Of a report each block has the
//! lines alone that the other planner does not print, of other answers all lines.

#![cfg(feature = "planted")]

use second::planted::{ERRORS, Error, plant};
use second::{LOG_LINES, Outcome, REPORT_BYTES, Replayed};
use second::{judge, plan, ranges, regions_text, replay, whole};

const PAGE: &str = include_str!("../../../docs/TEACHING.md");

/// A wrong planner with what tells it from the right one.
struct Case {
    error: Error,
    program: &'static str,
    texts: Vec<Vec<u8>>,
    wrong: Vec<String>,
    right: Vec<String>,
}

/// The blocks of the page that begin with ```` ```text ````: the words behind that, and the lines, with tabs.
fn blocks() -> Vec<(Vec<&'static str>, Vec<String>)> {
    let starts = PAGE.split("\n```text ").skip(1);
    let block = |start: &'static str| {
        let (block, _) = start.split_once("\n```").expect("a block has an end");
        let mut lines = block.lines();
        let words = lines.next().unwrap_or_default();
        let lines = lines.map(|line| line.replace(' ', "\t"));
        (words.split(' ').collect(), lines.collect())
    };
    starts.map(block).collect()
}

/// The cases of the page.
fn cases() -> Vec<Case> {
    let mut cases: Vec<Case> = Vec::new();
    let mut texts = Vec::new();
    for (words, lines) in blocks() {
        match words[..] {
            ["sheet" | "log" | "plan"] => texts.push((lines.join("\n") + "\n").into_bytes()),
            ["wrong", name, program] => cases.push(Case {
                error: error(name),
                program,
                texts: std::mem::take(&mut texts),
                wrong: lines,
                right: Vec::new(),
            }),
            ["right"] => {
                let case = cases.last_mut().expect("a wrong planner stands above");
                case.right = lines;
            }
            _ => panic!("{words:?} is no block of a case"),
        }
    }
    cases
}

/// The error of a name.
fn error(name: &str) -> Error {
    let mut errors = ERRORS.iter().copied();
    let found = errors.find(|error| format!("{error:?}") == name);
    found.unwrap_or_else(|| panic!("{name} is no planted error"))
}

/// All lines that a program prints for some texts.
fn printed(program: &str, texts: &[Vec<u8>]) -> Vec<String> {
    let text = match (program, texts) {
        ("plan", [sheet]) => report(plan, sheet),
        ("whole", [sheet]) => report(whole, sheet),
        ("ranges", [sheet]) => report(ranges, sheet),
        ("regions", [one, other]) => {
            String::from_utf8(regions_text([one, other])).expect("a text is printed")
        }
        ("judge", [sheet, plan]) => judge(sheet, plan).line(),
        ("replay", [sheet, log]) => {
            let mut answers = vec![0; LOG_LINES];
            let Replayed::Answered { count } = replay(sheet, log, &mut answers) else {
                panic!("the log is refused");
            };
            let lines = answers[..count].iter().map(|answer| format!("{answer}\n"));
            lines.collect()
        }
        _ => panic!("{program} does not read {} texts", texts.len()),
    };
    text.lines().map(str::to_string).collect()
}

/// The report of a planner on an accepted sheet.
fn report(planner: fn(&[u8], &mut [u8]) -> Outcome, sheet: &[u8]) -> String {
    let mut buffer = vec![0; REPORT_BYTES];
    let Outcome::Report { length } = planner(sheet, &mut buffer) else {
        panic!("refused: {}", String::from_utf8_lossy(sheet));
    };
    String::from_utf8_lossy(&buffer[..length]).into_owned()
}

/// What the page shows of some lines where another planner prints others.
fn shown(program: &str, lines: &[String], others: &[String]) -> Vec<String> {
    let is_report = !matches!(program, "judge" | "replay");
    let is_shown = |line: &&String| !is_report || !others.contains(line);
    lines.iter().filter(is_shown).cloned().collect()
}

#[test]
fn wrong_planners_print_what_the_page_says() {
    let cases = cases();
    assert!(cases.len() >= 14, "{} cases", cases.len());
    let right: Vec<Vec<String>> = cases
        .iter()
        .map(|case| printed(case.program, &case.texts))
        .collect();
    for (case, right) in cases.iter().zip(right) {
        plant(case.error);
        let wrong = printed(case.program, &case.texts);
        let [wrong, right] = [
            shown(case.program, &wrong, &right),
            shown(case.program, &right, &wrong),
        ];
        assert_ne!(wrong, right, "{:?} is not told", case.error);
        assert_eq!(wrong, case.wrong, "{:?} prints other lines", case.error);
        assert_eq!(right, case.right, "{:?}: the right planner", case.error);
    }
}
