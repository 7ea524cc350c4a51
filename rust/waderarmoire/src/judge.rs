//! Plans drawn by hand.

use crate::words::{self, Of};
use std::error::Error;
use std::fmt;

/// The longest plan that is judged, in bytes.
pub const PLAN_BYTES: usize = 65_536;

/// The most lines a plan may have.
pub const PLAN_LINES: usize = 1_024;

unsafe extern "C" {
    fn waderarmoire_judge(
        sheet: *const u8,
        sheet_len: usize,
        plan: *const u8,
        plan_len: usize,
    ) -> u64;
}

/// What is said of a plan that fits.
#[derive(Clone, Copy, Debug, PartialEq, Eq)]
pub struct Judgement {
    /// The sum of its amounts, in halves.
    pub total: u64,
    /// Whether no fitting plan has a greater total, however finely circuits are cut.
    pub is_largest: bool,
}

/// Why a plan is not accepted.
#[derive(Clone, Copy, Debug, PartialEq, Eq)]
pub struct JudgeRefusal {
    /// The text that is refused: 1 is the sheet, 2 the plan.
    pub text: u8,
    /// The number of the cause: of the sheet as in [`Refusal`](crate::Refusal), of the plan
    ///
    /// - 1: more than 65,536 bytes, or than 1,024 lines
    /// - 2: a letter other than `P`, or a missing line ending
    /// - 10: wrong number of fields
    /// - 11: a name is not 1 to 12 letters or digits
    /// - 17: name of digits only
    /// - 12: an amount is not written in decimal without a leading zero
    /// - 3: an amount of 0, or above 2,000,000
    /// - 6: the names are not those of two different ends, or another end lies between the two
    /// - 20: the pair is given on an earlier line, in either order
    /// - 21: a link would carry more than twice its usable size
    ///
    /// The causes of the sheet come first. 1 comes before the others of the plan, then the lowest line at fault
    /// decides, within a line in this order; 21 comes after the last line.
    pub number: u8,
    /// The line at fault, counted from 1, or 0 when no line is.
    pub line: u32,
}

/// The line that the program writes to standard error, without its line feed: which text, which line if there is one,
/// and the cause in words.
impl fmt::Display for JudgeRefusal {
    fn fmt(&self, out: &mut fmt::Formatter<'_>) -> fmt::Result {
        words::write(out, Of::Judge(self.text), self.number, self.line)
    }
}

impl Error for JudgeRefusal {}

/// Judges a plan drawn by hand over the network of `sheet`: its total, and whether that is the largest of all
/// fitting plans, however finely circuits are cut.
///
/// A line of the plan is `P`, the names of two ends in either order, and an amount in halves from 1 to 2,000,000,
/// parted by tabs and ended by byte 10: the lines of a report that begin with `P` are such. Each pair may be given
/// once. A plan of 0 bytes has no lines and is accepted. Nothing is allocated, and threads may call this at once.
///
/// # Errors
///
/// The refusal, if the sheet has a fault, the same as [`plan`](crate::plan) tells; if the plan has one; or if a
/// link would carry more than twice its usable size.
pub fn judge(sheet: &[u8], plan: &[u8]) -> Result<Judgement, JudgeRefusal> {
    // SAFETY: the pointers and lengths are those of two slices, and the pointer of an empty slice is not null
    // either. The library reads the texts within these lengths, writes neither, and keeps neither.
    let answer =
        unsafe { waderarmoire_judge(sheet.as_ptr(), sheet.len(), plan.as_ptr(), plan.len()) };
    match (answer >> 52) as u8 {
        0 => Ok(Judgement {
            total: answer >> 1,
            is_largest: answer & 1 == 1,
        }),
        text => Err(JudgeRefusal {
            text,
            number: (answer >> 40) as u8,
            line: (answer >> 20) as u32 & 0xf_ffff,
        }),
    }
}
