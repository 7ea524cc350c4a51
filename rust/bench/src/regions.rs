//! The time of two regions that share one link, by both libraries in turn.

use crate::library::{Times, time_calls, write_heading};
use second::{Answer, Exchanged};
use sheets::neighbours::largest;
use sheets::{Random, SHAPES, SITES};
use std::hint::black_box;
use waderarmoire::LINKS;

/// The two lists as slices.
fn lent(lists: &mut [[u64; LINKS]; 2]) -> [&mut [u64]; 2] {
    lists.each_mut().map(|list| &mut list[..])
}

/// Times both libraries on the sheets of two regions.
fn time([one, other]: &[Vec<u8>; 2], rounds: usize) -> Times {
    let [mut proved, mut second] = [[[0; LINKS]; 2]; 2];
    let sheets = [&one[..], other];
    let regions = waderarmoire::regions(sheets, lent(&mut proved));
    let due = regions.expect("they share a link").map(|region| Answer {
        count: region.sizes.len(),
        sum: region.sum,
    });
    let answered = second::regions(sheets, lent(&mut second));
    assert_eq!(answered, Exchanged::Answered(due));
    assert_eq!(proved, second);
    let total = due[0].sum + due[1].sum;
    time_calls(
        || _ = black_box(waderarmoire::regions(black_box(sheets), lent(&mut proved))),
        || _ = black_box(second::regions(black_box(sheets), lent(&mut second))),
        [one.len() + other.len(), total as usize],
        rounds,
    )
}

/// The table.
pub fn table(text: &mut String, rounds: usize) -> std::fmt::Result {
    let title = format!("Two regions of {SITES} sites each");
    write_heading(text, &title, ["shape", "bytes of both sheets", "total"])?;
    for shape in SHAPES {
        let sheets = largest(shape, SITES, &mut Random::new(1));
        time(&sheets, rounds).write_row(text, shape.name())?;
    }
    Ok(())
}
