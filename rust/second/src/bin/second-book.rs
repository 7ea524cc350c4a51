//! Writes the exercise book: a line for each tree of 2 to 5 sites with sizes 0 to 2.

use std::io::{Result, Write, stdout};

fn main() -> Result<()> {
    let mut out = stdout().lock();
    out.write_all(&second::book())?;
    out.flush()
}
