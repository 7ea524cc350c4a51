//! What the programs do: one sheet from standard input, its answer to standard output.

use crate::{Outcome, REPORT_BYTES, SHEET_BYTES};
use std::io::{Read, Result, Write, stdin, stdout};

/// Reads one sheet on standard input and writes what a planner does, or the line `refused`,
/// tab, number, tab, line.
///
/// # Errors
///
/// If standard input cannot be read or standard output cannot be written.
pub fn run(planner: fn(&[u8], &mut [u8]) -> Outcome) -> Result<()> {
    let mut sheet = Vec::with_capacity(SHEET_BYTES + 1);
    stdin()
        .lock()
        .take(SHEET_BYTES as u64 + 1)
        .read_to_end(&mut sheet)?;
    let mut report = [0; REPORT_BYTES];
    let mut out = stdout().lock();
    match planner(&sheet, &mut report) {
        Outcome::Report { length } => out.write_all(&report[..length])?,
        Outcome::Refused { number, line } => writeln!(out, "refused\t{number}\t{line}")?,
    }
    out.flush()
}
