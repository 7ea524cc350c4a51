//! Booking logs, against answers written out by hand and those due by the words of the card.

use second::{LOG_LINES, Replayed, replay};
use sheets::bare;
use sheets::ledger::{check, due, is_too_long};
use sheets::logs::{Case, case, every_small_log};
use sheets::replay::TRIED;
use sheets::tried::refused;

/// Replays with a list of so many places, and checks that nothing but the answers changes in it.
fn replayed(sheet: &[u8], log: &[u8], places: usize) -> (Replayed, Vec<u64>) {
    let pattern: Vec<u64> = (0..places as u64).map(|place| u64::MAX - place).collect();
    let mut answers = pattern.clone();
    let outcome = replay(sheet, log, &mut answers);
    let count = match outcome {
        Replayed::Answered { count } => count,
        Replayed::Refused { .. } => 0,
    };
    assert_eq!(answers[count..], pattern[count..]);
    answers.truncate(count);
    (outcome, answers)
}

/// The log is refused as a whole.
fn log_refused(number: u8) -> (Replayed, Vec<u64>) {
    let outcome = Replayed::Refused {
        text: 2,
        number,
        line: 0,
    };
    (outcome, Vec::new())
}

/// The answers to a log that is replayed.
fn answered(answers: &[u64]) -> (Replayed, Vec<u64>) {
    let count = answers.len();
    (Replayed::Answered { count }, answers.to_vec())
}

#[test]
fn answers_written_by_hand() {
    for tried in &TRIED {
        let (sheet, log) = (tried.sheet(), tried.log());
        let count = tried.answers.len();
        for places in [count, count + 1, LOG_LINES] {
            assert_eq!(
                replayed(&sheet, &log, places),
                answered(tried.answers),
                "{}",
                tried.title
            );
        }
        for places in 0..count {
            assert_eq!(replayed(&sheet, &log, places), log_refused(9));
        }
    }
}

#[test]
fn refused_sheets() {
    for tried in refused() {
        let due = Replayed::Refused {
            text: 1,
            number: tried.number,
            line: tried.line,
        };
        for log in [&b""[..], b"+\ta\tb\t1\n", b"x", &[b'\n'; 5_000]] {
            for places in [0, 1, LOG_LINES] {
                let (outcome, _) = replayed(&tried.sheet, log, places);
                assert_eq!(outcome, due, "{}", tried.title);
            }
        }
    }
}

#[test]
fn logs_at_the_limits() {
    let sheet = TRIED[0].sheet();
    for (log, due) in [
        (vec![b'\n'; 4_096], answered(&[2; 4_096])),
        (vec![b'\n'; 4_097], log_refused(1)),
        ([&[b'\n'; 4_095][..], b"+"].concat(), answered(&[2; 4_096])),
        ([&[b'\n'; 4_096][..], b"+"].concat(), log_refused(1)),
        (vec![b'+'; 65_536], answered(&[2])),
        (vec![b'+'; 65_537], log_refused(1)),
        ([&[b'+'; 65_535][..], b"\n"].concat(), answered(&[2])),
        ([&[b'+'; 65_536][..], b"\n"].concat(), log_refused(1)),
    ] {
        assert_eq!(replayed(&sheet, &log, 5_000), due, "{} bytes", log.len());
        // A list that is too short is told after a log that is too long.
        let short = if due == log_refused(1) { 1 } else { 9 };
        assert_eq!(replayed(&sheet, &log, 0), log_refused(short));
    }
}

/// Compares the answers to a case with those due.
fn compare(case: &Case) -> Result<(), String> {
    let Case { sheet, log, .. } = case;
    let due = if is_too_long(log) {
        log_refused(1)
    } else {
        answered(&due(&case.network, log))
    };
    let is_right = replayed(sheet, log, 5_000) == due && {
        let count = due.1.len();
        let short = if is_too_long(log) { 1 } else { 9 };
        replayed(sheet, log, count).0 == due.0
            && (count == 0 || replayed(sheet, log, count - 1) == log_refused(short))
    };
    if is_right {
        Ok(())
    } else {
        Err(format!("{}", String::from_utf8_lossy(log)))
    }
}

#[test]
fn every_log_of_three_lines() {
    let count = every_small_log(3, compare);
    assert_eq!(count, Ok(7 * (21 * 21 * 21 + 21 * 21 + 21 + 1 + 20 * 463)));
}

#[test]
fn every_pair_of_short_names() {
    let count = bare::every_log(compare);
    assert_eq!(count, Ok((85 * 85 + 2 * 814) * 8));
}

#[test]
fn random_logs() {
    for index in 0..4_000 {
        let (case, _) = case(6, index);
        assert_eq!(compare(&case), Ok(()), "log {index}");
        let (outcome, answers) = replayed(&case.sheet, &case.log, 5_000);
        if matches!(outcome, Replayed::Answered { .. }) {
            assert!(check(&case.network, &case.log, &answers).is_ok());
        }
    }
}
