//! Booking logs.

use crate::words::{self, Of};
use std::error::Error;
use std::fmt;

/// The longest log that is replayed, in bytes.
pub const LOG_BYTES: usize = 65_536;

/// The most lines a log may have: a list of this length is enough for the answers to every log.
pub const LOG_LINES: usize = 4_096;

unsafe extern "C" {
    fn waderarmoire_replay(
        sheet: *const u8,
        sheet_len: usize,
        log: *const u8,
        log_len: usize,
        answers: *mut u64,
        places: usize,
    ) -> u64;
}

/// Why a log is not replayed.
#[derive(Clone, Copy, Debug, PartialEq, Eq)]
pub struct ReplayRefusal {
    /// The text that is refused: 1 is the sheet, 2 the log.
    pub text: u8,
    /// The number of the cause: of the sheet as in [`Refusal`](crate::Refusal), of the log
    ///
    /// - 1: more than 65,536 bytes, or than 4,096 lines
    /// - 9: more lines than places in the list of answers
    ///
    /// The causes of the sheet come first.
    pub number: u8,
    /// The line of the sheet at fault, counted from 1, or 0 when no line is.
    pub line: u32,
}

/// Which text, which line if there is one, and the cause in words.
impl fmt::Display for ReplayRefusal {
    fn fmt(&self, out: &mut fmt::Formatter<'_>) -> fmt::Result {
        words::write(out, Of::Replay(self.text), self.number, self.line)
    }
}

impl Error for ReplayRefusal {}

/// Replays a booking log over the network of `sheet`, writes the answer to each line of the log to the
/// start of `answers` and returns the answers.
///
/// A line is `+` to open or `-` to give up, the names of two ends in either order, and an amount in
/// halves from 1 to 2,000,000, parted by tabs and ended by byte 10. What a line opens lies on each link
/// between the two ends. Its answer is 0, or else the number of the first of these causes, and then
/// it moves nothing:
///
/// - 2: a letter other than `+` and `-`, or a missing line ending
/// - 10: wrong number of fields
/// - 11: a name is not 1 to 12 letters or digits
/// - 17: name of digits only
/// - 12: an amount is not written in decimal without a leading zero
/// - 3: an amount of 0, or above 2,000,000
/// - 6: the names are not those of two different ends, or another end lies between the two
/// - 14: of `-`, the pair has less than that open
/// - 15: of `+`, a link between the two would carry more than twice its usable size
/// - 16: of `+`, the pair would be the 513th that is open
///
/// The places after the answers keep their values. A log of 0 bytes has no lines and gets no answers.
/// Nothing is allocated, nothing is kept for another call, and threads may call this at once.
///
/// # Errors
///
/// The refusal, if the sheet has a fault, the same as [`plan`](crate::plan) tells; if the log is too
/// long; or if the list has fewer places than the log has lines. The whole list then keeps its values.
pub fn replay<'list>(
    sheet: &[u8],
    log: &[u8],
    answers: &'list mut [u64],
) -> Result<&'list [u64], ReplayRefusal> {
    // SAFETY: the pointers and lengths are those of three slices. The list overlaps neither text as it
    // is borrowed mutably, and the pointer of an empty slice is not null either. The library reads the
    // texts and writes the list within these lengths, and keeps none of them.
    let answer = unsafe {
        waderarmoire_replay(
            sheet.as_ptr(),
            sheet.len(),
            log.as_ptr(),
            log.len(),
            answers.as_mut_ptr(),
            answers.len(),
        )
    };
    match (answer >> 52) as u8 {
        0 => Ok(&answers[..(answer & 0xf_ffff) as usize]),
        text => Err(ReplayRefusal {
            text,
            number: (answer >> 40) as u8,
            line: (answer >> 20) as u32 & 0xf_ffff,
        }),
    }
}
