//! The time of one booking log, by both libraries in turn.

use crate::growth;
use crate::library::{Times, time_calls, write_heading};
use second::{LOG_LINES, Replayed};
use sheets::logs::{Case, crowded_log, log_of};
use sheets::{Random, SHAPES, SITES, Shape, Sizes};
use std::fmt::Write;
use std::hint::black_box;

/// The numbers of lines.
const LINES: [usize; 5] = [256, 512, 1_024, 2_048, LOG_LINES];

/// The log of most lines over a tree of a shape.
pub fn largest(shape: Shape) -> Case {
    log(shape, SITES, LOG_LINES)
}

/// A log over a tree with large sizes.
fn log(shape: Shape, sites: usize, count: usize) -> Case {
    log_of(shape, sites, Sizes::Wide, count, &mut Random::new(1))
}

/// Times both libraries on a log.
fn time(case: &Case, rounds: usize) -> Times {
    let Case { sheet, log, .. } = case;
    let mut proved = vec![0; LOG_LINES];
    let mut second = vec![0; LOG_LINES];
    let answers = waderarmoire::replay(sheet, log, &mut proved).expect("the log is answered");
    let done = answers.iter().filter(|&&answer| answer == 0).count();
    let count = answers.len();
    assert_eq!(
        second::replay(sheet, log, &mut second),
        Replayed::Answered { count }
    );
    assert_eq!(proved, second);
    time_calls(
        || _ = black_box(waderarmoire::replay(black_box(sheet), log, &mut proved)),
        || _ = black_box(second::replay(black_box(sheet), log, &mut second)),
        [log.len(), done],
        rounds,
    )
}

/// The tables.
pub fn tables(text: &mut String, rounds: usize) -> std::fmt::Result {
    let time_log = |shape, sites, count| time(&log(shape, sites, count), rounds);
    let by_lines = SHAPES.map(|shape| LINES.map(|count| time_log(shape, SITES, count)));
    let title = format!("One log of {LOG_LINES} lines over {SITES} sites");
    write_heading(text, &title, ["shape", "log bytes", "lines answered 0"])?;
    for (shape, by_lines) in SHAPES.iter().zip(&by_lines) {
        by_lines[LINES.len() - 1].write_row(text, shape.name())?;
    }
    for shape in [Shape::Star, Shape::Prufer] {
        let case = crowded_log(shape, SITES, LOG_LINES, &mut Random::new(1));
        let title = format!("{}, about 512 pairs open", shape.name());
        time(&case, rounds).write_row(text, &title)?;
    }

    writeln!(
        text,
        "\n### Growth of a log over {SITES} sites with the number of lines, in microseconds\n"
    )?;
    growth::table(text, LINES, 1, &by_lines)?;

    writeln!(
        text,
        "\n### Growth of a log of {LOG_LINES} lines with the number of sites, in microseconds\n"
    )?;
    let by_sites = SHAPES.map(|shape| growth::SITES.map(|sites| time_log(shape, sites, LOG_LINES)));
    growth::table(text, growth::SITES, 2, &by_sites)
}
