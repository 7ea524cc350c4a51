//! One step of a region without its neighbour's sheet, given the file SHEET and the two shared names: writes
//! `first`, tab, its first trimmed size of the shared link. Given the neighbour's number behind these it writes
//! `region`, tab, its sum, and a line for each of its links: `L`, its two names, its trimmed size. A refusal is the
//! line `refused`, tab, number, tab, line.

use std::ffi::OsString;
use std::io::{Error, ErrorKind, Result, Write, stdout};
use std::os::unix::ffi::OsStrExt;

fn main() -> Result<()> {
    let words: Vec<OsString> = std::env::args_os().skip(1).collect();
    let (sheet, names, number) = match &words[..] {
        [sheet, one, other] => (sheet, [one, other], None),
        [sheet, one, other, number] => (sheet, [one, other], Some(number)),
        _ => {
            let due = "a sheet, two names and perhaps a number are due";
            return Err(Error::new(ErrorKind::InvalidInput, due));
        }
    };
    let sheet = std::fs::read(sheet)?;
    let names = names.map(|name| name.as_bytes());
    let mut out = stdout().lock();
    let number = number.map(|number| number.as_bytes());
    out.write_all(&second::region_text(&sheet, names, number))?;
    out.flush()
}
