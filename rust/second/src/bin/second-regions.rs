//! Trims two regions that share one link, given the files SHEET1 and SHEET2: writes of each `region`, tab, its
//! number, tab, its sum, and a line for each of its links: `L`, its two names, its trimmed size; or the line
//! `refused`, tab, sheet, tab, number, tab, line.

use std::io::{Error, ErrorKind, Result, Write, stdout};

fn main() -> Result<()> {
    let mut sheets = std::env::args_os().skip(1).map(std::fs::read);
    let (Some(one), Some(other), None) = (sheets.next(), sheets.next(), sheets.next()) else {
        return Err(Error::new(ErrorKind::InvalidInput, "two sheets are due"));
    };
    let mut out = stdout().lock();
    out.write_all(&second::regions_text([&one?, &other?]))?;
    out.flush()
}
