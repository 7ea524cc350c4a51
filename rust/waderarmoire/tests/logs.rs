//! The proved library on booking logs, against answers written out by hand and those due by the words of
//! the card.

use sheets::ledger::{due, is_too_long};
use sheets::logs::{case, long_log};
use sheets::tried::refused;
use sheets::{Random, SHAPES, SITES};
use std::env;
use std::thread::Builder;
use waderarmoire::{LOG_LINES, ReplayRefusal, STACK_BYTES, replay};

/// Replays with a list of so many places, all of them 7,777; those past the answers must stay so.
fn replayed(sheet: &[u8], log: &[u8], places: usize) -> Result<Vec<u64>, ReplayRefusal> {
    let mut list = vec![7_777; places];
    let answers = replay(sheet, log, &mut list).map(<[u64]>::to_vec);
    let count = answers.as_ref().map_or(0, Vec::len);
    assert!(list[count..].iter().all(|&place| place == 7_777));
    answers
}

/// The refusal of the whole log.
fn log_refused(number: u8) -> ReplayRefusal {
    ReplayRefusal {
        text: 2,
        number,
        line: 0,
    }
}

#[test]
fn answers_written_by_hand() {
    for tried in &sheets::replay::TRIED {
        let (sheet, log) = (tried.sheet(), tried.log());
        let count = tried.answers.len();
        for places in [count, count + 1, LOG_LINES] {
            let answers = replayed(&sheet, &log, places);
            assert_eq!(answers.as_deref(), Ok(tried.answers), "{}", tried.title);
        }
        for places in 0..count {
            assert_eq!(replayed(&sheet, &log, places), Err(log_refused(9)));
        }
    }
}

#[test]
fn refused_sheets() {
    for tried in refused() {
        let due = ReplayRefusal {
            text: 1,
            number: tried.number,
            line: tried.line,
        };
        for log in [&b""[..], b"+\ta\tb\t1\n", &[b'\n'; 5_000]] {
            for places in [0, LOG_LINES] {
                assert_eq!(replayed(&tried.sheet, log, places), Err(due));
            }
        }
    }
}

#[test]
fn random_logs() {
    for index in 0..300 {
        let (case, _) = case(2, index);
        let due = if is_too_long(&case.log) {
            Err(log_refused(1))
        } else {
            Ok(due(&case.network, &case.log))
        };
        assert_eq!(replayed(&case.sheet, &case.log, 5_000), due, "log {index}");
    }
}

/// The longest logs over the largest trees of every shape, in threads with little stack. The variable
/// `STACK` sets another number of bytes: the least with which this test passes is what a replay needs.
#[test]
fn little_stack() {
    let given = env::var("STACK").map(|text| text.parse().expect("a number of bytes"));
    let stack = given.unwrap_or(STACK_BYTES);
    for shape in SHAPES {
        let case = long_log(shape, SITES, &mut Random::new(1));
        let due = due(&case.network, &case.log);
        let thread = Builder::new()
            .stack_size(stack)
            .spawn(move || replayed(&case.sheet, &case.log, LOG_LINES));
        assert_eq!(thread.unwrap().join().unwrap(), Ok(due));
    }
}

#[test]
fn words() {
    let words = |text, number, line| ReplayRefusal { text, number, line }.to_string();
    assert_eq!(
        words(1, 5, 3),
        "the sheet, line 3: name already given to a site"
    );
    assert_eq!(
        words(1, 8, 0),
        "the sheet: fewer than two sites, or not all sites are joined"
    );
    assert_eq!(
        words(2, 1, 0),
        "the log: more than 65,536 bytes, or than 4,096 lines"
    );
    assert_eq!(
        words(2, 9, 0),
        "the log: more lines than places for answers"
    );
}
