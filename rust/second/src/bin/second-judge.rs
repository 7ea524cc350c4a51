//! Judges a plan drawn by hand, given the files SHEET and PLAN: writes the line `judged`, tab, total in halves,
//! tab, `yes` or `no`; or the line `refused`, tab, text, tab, number, tab, line.

use std::io::{Error, ErrorKind, Result, Write, stdout};

fn main() -> Result<()> {
    let mut texts = std::env::args_os().skip(1).map(std::fs::read);
    let (Some(sheet), Some(plan), None) = (texts.next(), texts.next(), texts.next()) else {
        return Err(Error::new(
            ErrorKind::InvalidInput,
            "SHEET and PLAN are due",
        ));
    };
    let mut out = stdout().lock();
    out.write_all(second::judge(&sheet?, &plan?).line().as_bytes())?;
    out.flush()
}
