//! The words behind the name of the program.

use crate::Page;
use std::ffi::OsString;
use std::path::PathBuf;

/// What the program does.
pub const HELP: &str = "\
usage: picture [--whole] [--arcs] [--out FILE] [SHEET]
       picture --steps [--out FILE] [SHEET]

Draws the network of a sheet, read from the file SHEET or from standard input, as an SVG: the tree with usable and trimmed
sizes, end sets and pairs, all as the planner prints them.

  --whole     the plan in whole circuits, with loads in the place of trimmed sizes
  --arcs      the pairs as arcs beside the tree, not as a table
  --steps     trimming step by step along the order of work; at most 24 steps, and only those that cut a link if all are more
  --out FILE  writes the SVG to a file, not to standard output
  --help      says this

Status 0: there is a picture. 1: the sheet is refused or could not be read, there are too many steps, or the picture could
not be written; a line on standard error says which. 2: the arguments are wrong.
";

/// What is asked for.
#[derive(Debug, PartialEq, Eq)]
pub enum Asked {
    /// The help.
    Help,
    /// A picture.
    Picture {
        /// What is drawn.
        page: Page,
        /// The file that it is written to; standard output if there is none.
        out: Option<PathBuf>,
        /// The file of the sheet; standard input if there is none.
        sheet: Option<PathBuf>,
    },
}

/// Reads the words.
///
/// # Errors
///
/// What is wrong with them.
pub fn read(words: impl IntoIterator<Item = OsString>) -> Result<Asked, String> {
    let [mut is_whole, mut has_arcs, mut has_steps] = [false; 3];
    let [mut out, mut sheet] = [None, None];
    let mut words = words.into_iter();
    while let Some(word) = words.next() {
        match word.to_str() {
            Some("-h" | "--help") => return Ok(Asked::Help),
            Some("--whole") => is_whole = true,
            Some("--arcs") => has_arcs = true,
            Some("--steps") => has_steps = true,
            Some("--out") => {
                let file = words.next().ok_or("--out is there without a file")?;
                put(&mut out, file, "--out is there twice")?;
            }
            Some(option) if option.starts_with('-') => {
                return Err(format!("there is no option {option}"));
            }
            _ => put(&mut sheet, word, "one sheet is drawn at a time")?,
        }
    }
    if has_steps && (is_whole || has_arcs) {
        return Err("--steps goes with neither --whole nor --arcs".to_string());
    }
    let page = if has_steps {
        Page::Steps
    } else {
        Page::Plan { is_whole, has_arcs }
    };
    Ok(Asked::Picture { page, out, sheet })
}

/// Keeps the name of a file, unless there is one already.
fn put(place: &mut Option<PathBuf>, word: OsString, twice: &str) -> Result<(), String> {
    if place.is_some() {
        return Err(twice.to_string());
    }
    *place = Some(word.into());
    Ok(())
}
