//! Draws one network sheet as an SVG; `picture --help` says how.

use picture::options::{Asked, HELP, read};
use picture::{Failure, draw};
use std::fs::File;
use std::io::{self, IsTerminal, Read, Write};
use std::path::Path;
use std::process::ExitCode;
use waderarmoire::SHEET_BYTES;

fn main() -> ExitCode {
    let asked = match read(std::env::args_os().skip(1)) {
        Ok(asked) => asked,
        Err(what) => {
            eprintln!("picture: {what}; picture --help says more");
            return ExitCode::from(2);
        }
    };
    match answer(&asked) {
        Ok(()) => ExitCode::SUCCESS,
        Err(failure) => {
            eprintln!("{failure}");
            ExitCode::FAILURE
        }
    }
}

/// Does what is asked for.
fn answer(asked: &Asked) -> Result<(), Failure> {
    let Asked::Picture { page, out, sheet } = asked else {
        return Ok(write(None, HELP)?);
    };
    let sheet = match sheet {
        Some(path) => read_file(path)?,
        None => read_input()?,
    };
    let picture = draw(&sheet, *page)?;
    Ok(write(out.as_deref(), &picture)?)
}

/// Reads a sheet from a file.
fn read_file(path: &Path) -> Result<Vec<u8>, String> {
    let name = path.display();
    if path.is_dir() {
        return Err(format!("{name} is a folder, not a sheet"));
    }
    let unreadable = |error: io::Error| match error.kind() {
        io::ErrorKind::NotFound => format!("there is no file {name}"),
        io::ErrorKind::PermissionDenied => format!("{name} may not be read"),
        _ => format!("{name} cannot be read: {error}"),
    };
    File::open(path).and_then(read_sheet).map_err(unreadable)
}

/// Reads a sheet from standard input.
fn read_input() -> Result<Vec<u8>, String> {
    let input = io::stdin();
    if input.is_terminal() {
        eprintln!("picture: the sheet is read from standard input; Ctrl-D ends it");
    }
    read_sheet(input).map_err(|error| format!("standard input cannot be read: {error}"))
}

/// Reads a sheet; one byte more than a sheet may have shows that it has too many.
fn read_sheet(source: impl Read) -> io::Result<Vec<u8>> {
    let mut sheet = Vec::new();
    let mut limited = source.take(SHEET_BYTES as u64 + 1);
    limited.read_to_end(&mut sheet)?;
    Ok(sheet)
}

/// Writes a text to a file or to standard output.
fn write(out: Option<&Path>, text: &str) -> Result<(), String> {
    if let Some(path) = out {
        let unwritable = |error| format!("{} cannot be written: {error}", path.display());
        return std::fs::write(path, text).map_err(unwritable);
    }
    let mut out = io::stdout().lock();
    let written = out.write_all(text.as_bytes()).and_then(|()| out.flush());
    written.map_err(|error| format!("standard output cannot be written: {error}"))
}
