//! Both planners on one sheet that must be accepted, in whole circuits.

use crate::card::{self, Checked};
use crate::compare::{Answer, Planners};

/// Compares the planners on a sheet. Loads and end sets are free, so each report is checked against
/// the card by itself; the totals must agree. Returns the proved report, and what it says.
pub fn accepted<'buffer>(
    planners: &'buffer mut Planners,
    sheet: &[u8],
) -> Result<(&'buffer [u8], Checked), String> {
    let reports = match planners.whole(sheet, planners.room())? {
        Answer::Report(reports) => reports,
        Answer::Refused(number, line) => {
            return Err(format!("whole: a tree is refused: {number} at line {line}"));
        }
    };
    let told = |planner: &str, what: &str| format!("whole, the {planner} planner: {what}");
    let proved = card::check(sheet, reports.proved).map_err(|what| told("proved", &what))?;
    let second = card::check(sheet, reports.second).map_err(|what| told("second", &what))?;
    if proved.total != second.total {
        return Err(format!(
            "whole: the proved planner has a total of {}, the second of {}",
            proved.total, second.total
        ));
    }
    Ok((reports.proved, proved))
}
