//! Time and memory of the programs.

use crate::library::{median, microseconds};
use std::fs::File;
use std::io::{Result, Write, pipe};
use std::path::{Path, PathBuf};
use std::process::{Command, Stdio};
use std::thread::sleep;
use std::time::{Duration, Instant};

/// What a program reads.
pub enum Input {
    /// One sheet on standard input.
    Sheet(PathBuf),
    /// The files of a sheet and a log or a plan.
    Files([PathBuf; 2]),
}

impl Input {
    fn command(&self, program: &Path) -> Result<Command> {
        let mut command = Command::new(program);
        match self {
            Input::Sheet(sheet) => command.stdin(File::open(sheet)?),
            Input::Files(files) => command.args(files).stdin(Stdio::null()),
        };
        Ok(command)
    }
}

/// Microseconds from starting each of two programs to its end, the median of so many runs in turn.
pub fn times(programs: [&Path; 2], input: &Input, runs: usize) -> Result<[f64; 2]> {
    let mut timings = [Vec::with_capacity(runs), Vec::with_capacity(runs)];
    for _ in 0..runs {
        for (program, timings) in programs.iter().zip(&mut timings) {
            let mut command = input.command(program)?;
            let start = Instant::now();
            command.stdout(Stdio::null()).status()?;
            timings.push(microseconds(start.elapsed()));
        }
    }
    Ok(timings.map(|mut timings| median(&mut timings)))
}

/// The memory of a program, in KiB.
#[derive(Clone, Copy, Default)]
pub struct Memory {
    /// The most that was resident.
    pub peak: u64,
    /// What the stack of its first thread has grown to.
    pub stack: u64,
}

/// The memory that a program has used by the time it prints its answer.
///
/// Its output goes into a pipe that is full, so that it waits while the memory is looked up.
pub fn memory(program: &Path, input: &Input) -> Result<Memory> {
    const PIPE_BYTES: usize = 65_536;
    let (reader, mut writer) = pipe()?;
    writer.write_all(&[0; PIPE_BYTES])?;
    let mut child = input
        .command(program)?
        .stdout(writer)
        .stderr(Stdio::null())
        .spawn()?;
    let status = format!("/proc/{}/status", child.id());
    let mut seen_waiting = 0;
    let mut memory = Memory::default();
    while seen_waiting < 5 {
        sleep(Duration::from_millis(10));
        let status = std::fs::read_to_string(&status)?;
        let field = |name: &str| {
            let line = status.lines().find_map(|line| line.strip_prefix(name));
            line.and_then(|rest| rest.split_whitespace().next())
        };
        seen_waiting = if field("State:") == Some("S") {
            seen_waiting + 1
        } else {
            0
        };
        let number = |name: &str| field(name).and_then(|text| text.parse().ok());
        if let (Some(peak), Some(stack)) = (number("VmHWM:"), number("VmStk:")) {
            memory = Memory { peak, stack };
        }
        if field("State:") == Some("Z") {
            break;
        }
    }
    drop(reader);
    child.wait()?;
    Ok(memory)
}
