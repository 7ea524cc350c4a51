//! The sheets to try of the scope document and the cards, against answers written out by hand.

use second::{Outcome, REPORT_BYTES, SITES, order, order_lines, pair_lines, plan, whole};
use sheets::cases::{self, Due};
use sheets::tried::{ACCEPTED, largest_sums, largest_sums_printed, refused, star};
use sheets::whole::TRIED;
use sheets::{Edition, Layout, Network, Random, bare, marks, reserve};

type Planner = fn(&[u8], &mut [u8]) -> Outcome;

/// Plans with a buffer of a known pattern and checks that nothing but the report changes in it.
fn planned(planner: Planner, sheet: &[u8], buffer_length: usize) -> (Outcome, Vec<u8>) {
    let pattern: Vec<u8> = (0..buffer_length).map(|place| place as u8 | 0x80).collect();
    let mut buffer = pattern.clone();
    let outcome = planner(sheet, &mut buffer);
    let length = match outcome {
        Outcome::Report { length } => length,
        Outcome::Refused { .. } => 0,
    };
    assert_eq!(buffer[length..], pattern[length..]);
    buffer.truncate(length);
    (outcome, buffer)
}

/// The report of a sheet that is accepted.
fn report(planner: Planner, sheet: &[u8]) -> Vec<u8> {
    let (outcome, report) = planned(planner, sheet, REPORT_BYTES);
    assert!(matches!(outcome, Outcome::Report { .. }));
    report
}

#[test]
fn reports() {
    for tried in &ACCEPTED {
        assert_eq!(
            String::from_utf8_lossy(&report(plan, &tried.sheet())),
            String::from_utf8_lossy(&tried.report()),
            "{}",
            tried.title
        );
    }
}

#[test]
fn reports_in_whole_circuits() {
    for tried in &TRIED {
        let report = report(whole, &tried.sheet());
        assert!(
            tried.agrees(&report),
            "{}: {}",
            tried.title,
            String::from_utf8_lossy(&report)
        );
    }
}

/// One report in whole circuits to the last byte, with this planner's choice of loads.
#[test]
fn star_in_whole_circuits() {
    let due = "whole 2 1\nL hub a 1 0\nL hub b 1 1\nL hub c 1 1\nN hub -\nN a a\nN b b\nN c c\n\
               X a 1 1\nX b 1 1\nX c 1 1\nQ 1\nP b c 2\n";
    let report = report(whole, &TRIED[0].sheet());
    assert_eq!(String::from_utf8_lossy(&report).replace('\t', " "), due);
}

/// Of the three pairs of loads of a star 1, 1, 1 each gives its pair.
#[test]
fn pairs_of_loads() {
    let sheet = TRIED[0].sheet();
    let lines = |loads| {
        let lines = pair_lines(&sheet, loads).expect("a tree with as many links");
        String::from_utf8_lossy(&lines).replace('\t', " ")
    };
    assert_eq!(lines(&[1, 1, 0]), "P a b 2\n");
    assert_eq!(lines(&[1, 0, 1]), "P a c 2\n");
    assert_eq!(lines(&[0, 1, 1]), "P b c 2\n");
    assert_eq!(lines(&[1, 1, 1]), "P a b 1\nP a c 1\nP b c 1\n");
    assert_eq!(lines(&[0, 0, 0]), "");
    assert_eq!(pair_lines(&sheet, &[1, 1]), None);
    assert_eq!(pair_lines(b"network\t1\n", &[]), None);
}

#[test]
fn refusals() {
    for tried in refused() {
        let expected = Outcome::Refused {
            number: tried.number,
            line: tried.line,
        };
        for planner in [plan, whole] {
            let (outcome, _) = planned(planner, &tried.sheet, REPORT_BYTES);
            assert_eq!(outcome, expected, "{}", tried.title);
            let (outcome, _) = planned(planner, &tried.sheet, 0);
            assert_eq!(outcome, expected, "{}, empty buffer", tried.title);
        }
    }
}

#[test]
fn buffers() {
    for tried in &ACCEPTED {
        for planner in [plan, whole] {
            let length = report(planner, &tried.sheet()).len();
            for buffer_length in 0..length + 40 {
                let (outcome, _) = planned(planner, &tried.sheet(), buffer_length);
                let expected = if buffer_length < length {
                    Outcome::Refused { number: 9, line: 0 }
                } else {
                    Outcome::Report { length }
                };
                assert_eq!(outcome, expected, "{}", tried.title);
            }
        }
    }
}

/// What is in a list of so many places after a call, past it a pattern.
fn ordered(sheet: &[u8], places: usize) -> (Outcome, Vec<usize>) {
    let mut list = vec![usize::MAX; places];
    (order(sheet, &mut list), list)
}

#[test]
fn orders() {
    for tried in &sheets::order::TRIED {
        let length = tried.order.len();
        for places in [length, length + 1, SITES] {
            let (outcome, list) = ordered(&tried.sheet(), places);
            assert_eq!(outcome, Outcome::Report { length }, "{}", tried.title);
            assert_eq!(list[..length], *tried.order, "{}", tried.title);
            assert!(list[length..].iter().all(|&place| place == usize::MAX));
        }
        for places in 0..length {
            let too_short = Outcome::Refused { number: 9, line: 0 };
            assert_eq!(
                ordered(&tried.sheet(), places),
                (too_short, vec![usize::MAX; places])
            );
        }
    }
}

#[test]
fn orders_refused() {
    for tried in refused() {
        let expected = Outcome::Refused {
            number: tried.number,
            line: tried.line,
        };
        for places in [0, 1, SITES] {
            let kept = vec![usize::MAX; places];
            assert_eq!(
                ordered(&tried.sheet, places),
                (expected, kept),
                "{}",
                tried.title
            );
        }
    }
}

#[test]
fn lines_of_an_order() {
    let lines = report(order_lines, &sheets::order::TRIED[0].sheet());
    assert_eq!(lines, b"2\ta\n3\tb\n1\thub\n4\tc\n");
}

#[test]
fn most_sites() {
    for edition in Edition::ALL {
        // Sizes from 2 up: no link is larger than all others together, so nothing is trimmed.
        let total: usize = (2..=edition.sites()).sum();
        let heading = format!("plan\t{total}\t");
        assert!(report(plan, &star(edition)).starts_with(heading.as_bytes()));
        // The sizes sum to an odd number: one half cannot be used by whole circuits.
        let heading = format!("whole\t{}\t", total - 1);
        assert!(report(whole, &star(edition)).starts_with(heading.as_bytes()));
    }
}

#[test]
fn largest_numbers() {
    for edition in Edition::ALL {
        let [start, set, end] = largest_sums_printed(edition);
        for (planner, word) in [(plan as Planner, &b"plan"[..]), (whole, b"whole")] {
            let report = report(planner, &largest_sums(edition));
            assert!(report.starts_with(&[word, start].concat()) && report.ends_with(end));
            assert!(report.windows(set.len()).any(|part| part == set));
        }
    }
}

#[test]
fn lines_of_an_order_in_either_case() {
    let tried = sheets::order::TRIED.last().expect("there are some");
    let lines = report(order_lines, &tried.sheet());
    assert_eq!(lines, b"1\tA\n3\tb\n2\thub\n4\tC\n");
}

/// Compares the reports on a sheet of two sites with what is due.
fn is_due(sheet: &[u8], due: &Due) -> Result<(), String> {
    for (planner, due) in [(plan as Planner, due), (whole, &due.in_whole_circuits())] {
        let (outcome, report) = planned(planner, sheet, REPORT_BYTES);
        let answer = match outcome {
            Outcome::Report { .. } => Due::Report(report),
            Outcome::Refused { number, line } => Due::Refused(number, line),
        };
        if answer != *due {
            return Err(format!("{answer:?} where {due:?} is due"));
        }
    }
    Ok(())
}

/// The same under the headings of both editions.
fn is_due_of_both(sheet: &[u8], due: &Due) -> Result<(), String> {
    for edition in Edition::ALL {
        is_due(&edition.head(sheet).expect("it has a heading"), due)?;
    }
    Ok(())
}

#[test]
fn every_small_sheet_in_either_case() {
    let count = cases::every_sheet(is_due_of_both);
    assert_eq!(count, Ok(8_usize.pow(4) + 12_usize.pow(4) + 37 * 81));
}

#[test]
fn every_small_sheet_with_reserves() {
    let count = reserve::every_sheet(is_due_of_both);
    assert_eq!(count, Ok(24 * 25 * 36 * 2 + 24 * 24 * 3));
}

#[test]
fn every_small_sheet_with_marks() {
    let count = marks::every_sheet(is_due_of_both);
    assert_eq!(count, Ok(2 * 14 * 28 * 6));
}

#[test]
fn every_small_sheet_with_bare_numbers() {
    let count = bare::every_sheet(is_due_of_both);
    assert_eq!(count, Ok((85 + 814) * 4 + (85 * 85 + 2 * 814) * 5));
}

/// A mark makes no difference to the order of work, and none at all at a site with one link.
#[test]
fn orders_without_marks() {
    let mut random = Random::new(7);
    for _ in 0..2_000 {
        let mut network = Network::any(40, &mut random);
        network.mark(&mut random);
        let layout = Layout::any(&mut random);
        let sheet = |network: &Network| network.sheet(layout, &mut random.clone());
        let marked = sheet(&network);
        let around = network.around();
        for (mark, links) in network.marks.iter_mut().zip(&around) {
            *mark &= links.len() > 1;
        }
        let inside = sheet(&network);
        network.marks.fill(false);
        let unmarked = sheet(&network);
        for planner in [plan, whole] {
            assert_eq!(report(planner, &marked), report(planner, &inside));
        }
        let lines = report(order_lines, &unmarked);
        assert_eq!(report(order_lines, &marked), lines);
    }
}

/// A reserve makes no difference but to the size that can be used.
#[test]
fn reports_by_usable_size() {
    let mut random = Random::new(5);
    for _ in 0..2_000 {
        let with_reserves = Network::any(40, &mut random);
        let mut usable = with_reserves.clone();
        usable.sizes = with_reserves.usable_sizes();
        usable.reserves.fill(None);
        let layout = Layout::any(&mut random);
        let sheets = [with_reserves, usable].map(|it| it.sheet(layout, &mut random.clone()));
        for planner in [plan, whole, order_lines] {
            let [one, other] = [0, 1].map(|number| report(planner, &sheets[number]));
            assert_eq!(one, other, "{}", String::from_utf8_lossy(&sheets[0]));
        }
    }
}

/// The number that a sheet of three lines under its heading gets, or 0.
fn number(lines: [&[u8]; 3]) -> u8 {
    let sheet = [b"network\t1", lines[0], lines[1], lines[2], b""].join(&b'\n');
    match planned(plan, &sheet, REPORT_BYTES).0 {
        Outcome::Report { .. } => 0,
        Outcome::Refused { number, .. } => number,
    }
}

/// Every byte as a name, after every name of one byte.
#[test]
fn every_byte_as_a_name() {
    let bytes = (0..=u8::MAX).filter(|byte| !b"\t\n".contains(byte));
    for other in bytes {
        for given in (0..=u8::MAX).filter(u8::is_ascii_alphanumeric) {
            let is_same = given.eq_ignore_ascii_case(&other);
            let has_bare = given.is_ascii_digit() || other.is_ascii_digit();
            let due = match (other.is_ascii_alphanumeric(), is_same) {
                _ if has_bare => [17, 17],
                (false, _) => [11, 11],
                (true, true) => [5, 0],
                (true, false) => [8, 6],
            };
            let [given, again] = [given, other].map(|name| [b'N', b'\t', name]);
            let link = [b"L", &[other][..], b"hub", b"1"].join(&b'\t');
            let numbers = [
                number([&given, b"N\thub", &again]),
                number([&given, b"N\thub", &link]),
            ];
            assert_eq!(numbers, due, "{given:?}, then {other}");
        }
    }
}
