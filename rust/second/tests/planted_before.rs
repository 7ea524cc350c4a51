//! A planner from before the card on bare numbers, which accepts them as names, answers every sheet and every line
//! of a log alike that does not get 17; and none without a bare number does.

#![cfg(feature = "planted")]

use second::planted::{Error, plant};
use second::{LOG_LINES, Outcome, REPORT_BYTES, plan, replay};
use sheets::bare::{self, is_bare};
use sheets::cases::{self, Due};
use sheets::logs::{Case, case};
use sheets::tried::{ACCEPTED, Accepted, refused};
use sheets::{Layout, Network, Random, marks, reserve};

/// So many random sheets and logs are tried.
const SHEETS: usize = 2_000;
const LOGS: u64 = 500;

/// What is answered on a sheet.
fn answer(sheet: &[u8]) -> Due {
    let mut buffer = [0; REPORT_BYTES];
    match plan(sheet, &mut buffer) {
        Outcome::Report { length } => Due::Report(buffer[..length].to_vec()),
        Outcome::Refused { number, line } => Due::Refused(number, line),
    }
}

/// The answers to the lines of a log; 0 where there are none.
fn answers(case: &Case) -> Vec<u64> {
    let mut answers = vec![0; LOG_LINES];
    replay(&case.sheet, &case.log, &mut answers);
    answers
}

/// Whether one of some lines has a bare number in the place of a name, given how many names each letter has.
fn has_bare(lines: &[u8], letters: &[(&[u8], usize)]) -> bool {
    lines.split(|&byte| byte == b'\n').any(|line| {
        let mut fields = line.split(|&byte| byte == b'\t');
        let letter = fields.next();
        let names = letters.iter().find(|(it, _)| letter == Some(it));
        let names = names.map_or(0, |(_, names)| *names);
        fields.take(names).any(is_bare)
    })
}

/// The sheets to try, all small ones, and random trees, of which every second one has a byte changed.
fn every_sheet() -> Vec<Vec<u8>> {
    let mut sheets: Vec<Vec<u8>> = ACCEPTED.iter().map(Accepted::sheet).collect();
    sheets.extend(refused().into_iter().map(|tried| tried.sheet));
    let mut see = |sheet: &[u8], _: &Due| {
        sheets.push(sheet.to_vec());
        Ok::<(), ()>(())
    };
    assert!(cases::every_sheet(&mut see).is_ok() && marks::every_sheet(&mut see).is_ok());
    assert!(reserve::every_sheet(&mut see).is_ok() && bare::every_sheet(&mut see).is_ok());
    let mut random = Random::new(9);
    for number in 0..SHEETS {
        let network = Network::any(12, &mut random);
        let mut sheet = network.sheet(Layout::any(&mut random), &mut random);
        if number % 2 == 1 {
            let place = random.below(sheet.len());
            sheet[place] = *random.pick(b"07aP\t\n-");
        }
        sheets.push(sheet);
    }
    sheets
}

#[test]
fn a_planner_from_before() {
    let sheets = every_sheet();
    let logs: Vec<Case> = (0..LOGS).map(|index| case(9, index).0).collect();
    let reports: Vec<Due> = sheets.iter().map(|sheet| answer(sheet)).collect();
    let lists: Vec<Vec<u64>> = logs.iter().map(answers).collect();
    plant(Error::BareAccepted);
    let mut told = [0; 2];
    for (sheet, after) in sheets.iter().zip(reports) {
        let before = answer(sheet);
        if matches!(after, Due::Refused(17, _)) {
            assert!(before != after && has_bare(sheet, &[(b"N", 1), (b"T", 1), (b"L", 2)]));
            told[0] += 1;
        } else {
            assert_eq!(before, after, "{}", String::from_utf8_lossy(sheet));
        }
    }
    for (case, list) in logs.iter().zip(lists) {
        assert!(!list.contains(&17) || has_bare(&case.log, &[(b"+", 2), (b"-", 2)]));
        for (before, after) in answers(case).into_iter().zip(list) {
            assert!(before == after || (after == 17 && [3, 6, 12].contains(&before)));
            told[1] += usize::from(after == 17);
        }
    }
    assert!(told.into_iter().all(|told| told > 100), "{told:?}");
}
