//! Tables of how times grow.

use crate::library::Times;
use sheets::SHAPES;
use std::fmt::{Result, Write};

/// The numbers of sites for which growth is shown, the most of each edition among them.
pub const SITES: [usize; 6] = [16, 32, 64, 128, 256, 384];

/// The times of each shape for each of some counts.
pub type Measured<const COUNTS: usize> = [[Times; COUNTS]; SHAPES.len()];

/// Writes the times of both planners for each shape and count, and behind them how many times as long each of
/// the last `ratios` counts takes as the count before them.
pub fn table<const COUNTS: usize>(
    text: &mut String,
    counts: [usize; COUNTS],
    ratios: usize,
    measured: &Measured<COUNTS>,
) -> Result {
    let compared: Vec<usize> = (COUNTS - ratios..COUNTS).collect();
    let base = COUNTS - ratios - 1;
    let columns = counts.map(|count| format!(" {count} |")).concat();
    let ratio = |&place: &usize| format!(" {} : {} |", counts[place], counts[base]);
    let ratio_columns: String = compared.iter().map(ratio).collect();
    writeln!(text, "| shape | planner |{columns}{ratio_columns}")?;
    writeln!(text, "|---|---|{}", "---:|".repeat(COUNTS + ratios))?;
    for (shape, by_count) in SHAPES.iter().zip(measured) {
        let proved = by_count.each_ref().map(|times| times.proved);
        let second = by_count.each_ref().map(|times| times.second);
        for (planner, times) in [("proved", proved), ("second", second)] {
            write!(text, "| {} | {planner} |", shape.name())?;
            for time in &times {
                write!(text, " {time:.1} |")?;
            }
            for &place in &compared {
                write!(text, " {:.2} |", times[place] / times[base])?;
            }
            writeln!(text)?;
        }
    }
    Ok(())
}
