//! The time of one plan drawn by hand, by both libraries in turn.

use crate::library::{Times, time_calls, write_heading};
use second::Judged;
use sheets::plans::{Case, longest_plan};
use sheets::{Random, SHAPES, SITES, Shape};
use std::hint::black_box;

/// The plan of most lines over a tree of a shape, if it has so many pairs of ends.
pub fn largest(shape: Shape) -> Option<Case> {
    longest_plan(shape, SITES, &mut Random::new(1))
}

/// Times both libraries on a plan.
fn time(case: &Case, rounds: usize) -> Times {
    let Case { sheet, plan, .. } = case;
    let judgement = waderarmoire::judge(sheet, plan).expect("the plan fits");
    let due = Judged::Accepted {
        total: judgement.total,
        is_largest: judgement.is_largest,
    };
    assert_eq!(second::judge(sheet, plan), due);
    time_calls(
        || _ = black_box(waderarmoire::judge(black_box(sheet), plan)),
        || _ = black_box(second::judge(black_box(sheet), plan)),
        [plan.len(), judgement.total as usize],
        rounds,
    )
}

/// The table.
pub fn table(text: &mut String, rounds: usize) -> std::fmt::Result {
    let title = format!("One plan of 1,024 lines drawn by hand over {SITES} sites");
    write_heading(text, &title, ["shape", "plan bytes", "total"])?;
    for shape in SHAPES {
        if let Some(case) = largest(shape) {
            time(&case, rounds).write_row(text, shape.name())?;
        }
    }
    Ok(())
}
