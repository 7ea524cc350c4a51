//! Replays a booking log over a sheet, given the files SHEET and LOG: writes a line for each line of the
//! log, its answer; or the line `refused`, tab, text, tab, number, tab, line.

use second::{LOG_LINES, Replayed, replay};
use std::io::{Error, ErrorKind, Result, Write, stdout};

fn main() -> Result<()> {
    let mut texts = std::env::args_os().skip(1).map(std::fs::read);
    let (Some(sheet), Some(log), None) = (texts.next(), texts.next(), texts.next()) else {
        return Err(Error::new(ErrorKind::InvalidInput, "SHEET and LOG are due"));
    };
    let mut answers = [0; LOG_LINES];
    let mut text = Vec::new();
    match replay(&sheet?, &log?, &mut answers) {
        Replayed::Answered { count } => {
            for answer in &answers[..count] {
                writeln!(text, "{answer}")?;
            }
        }
        Replayed::Refused {
            text: which,
            number,
            line,
        } => writeln!(text, "refused\t{which}\t{number}\t{line}")?,
    }
    let mut out = stdout().lock();
    out.write_all(&text)?;
    out.flush()
}
