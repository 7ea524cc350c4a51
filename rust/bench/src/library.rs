//! The time of one report, by both libraries in turn.

use second::{Outcome, REPORT_BYTES};
use std::fmt::Write;
use std::hint::black_box;
use std::time::{Duration, Instant};

/// A timing covers as many plans as take about this long, after one that is not timed.
const TIMING: Duration = Duration::from_micros(200);

/// Writes the heading of a table, whose lines tell of what they are and two numbers about it before the times.
pub fn write_heading(text: &mut String, title: &str, columns: [&str; 3]) -> std::fmt::Result {
    let columns = columns.join(" | ");
    writeln!(text, "\n### {title}, in microseconds\n")?;
    writeln!(text, "| {columns} | proved | second | ratio |")?;
    writeln!(text, "|---|{}", "---:|".repeat(5))
}

/// Microseconds of one call, the median of many.
pub struct Times {
    pub proved: f64,
    pub second: f64,
    /// The length of the sheet or sheets, of the log or of the plan drawn by hand.
    pub input_bytes: usize,
    /// The length of the proved report, or of a buffer that is too short for it; the number of lines answered with 0;
    /// or the total of a plan or of two regions.
    pub answered: usize,
}

impl Times {
    /// Writes the line of one call.
    pub fn write_row(&self, text: &mut String, title: &str) -> std::fmt::Result {
        writeln!(
            text,
            "| {title} | {} | {} | {:.1} | {:.1} | {:.2} |",
            self.input_bytes,
            self.answered,
            self.proved,
            self.second,
            self.proved / self.second
        )
    }
}

/// Times both libraries on a sheet, each with a buffer of so many bytes.
///
/// # Panics
///
/// If one of them refuses the sheet, for another cause than a buffer that is too short for both.
pub fn time(libraries: &Libraries, sheet: &[u8], bytes: usize, rounds: usize) -> Times {
    let mut buffer = vec![0; bytes];
    let mut other = vec![0; bytes];
    let answers = [
        (libraries.proved)(sheet, &mut buffer),
        (libraries.second)(sheet, &mut other),
    ];
    let answered = match answers {
        [Ok(length), Ok(_)] => length,
        [Err(BUFFER_TOO_SHORT), Err(BUFFER_TOO_SHORT)] => bytes,
        _ => panic!("the libraries answer {answers:?}"),
    };
    time_calls(
        || _ = black_box((libraries.proved)(black_box(sheet), &mut buffer)),
        || _ = black_box((libraries.second)(black_box(sheet), &mut other)),
        [sheet.len(), answered],
        rounds,
    )
}

/// The longest buffer that is too short for the reports of both libraries on a sheet.
pub fn short_buffer(libraries: &Libraries, sheet: &[u8]) -> usize {
    let mut buffer = vec![0; REPORT_BYTES];
    let lengths = [libraries.proved, libraries.second].map(|library| library(sheet, &mut buffer));
    let [proved, second] = lengths.map(|length| length.expect("the sheet is accepted"));
    proved.min(second) - 1
}

/// Times two calls in turn so often, of the proved library and of the second, given the bytes of their input and
/// how much is answered.
pub fn time_calls(
    proved: impl FnMut(),
    second: impl FnMut(),
    [input_bytes, answered]: [usize; 2],
    rounds: usize,
) -> Times {
    let mut proved = Timer::new(proved);
    let mut second = Timer::new(second);
    for _ in 0..rounds {
        proved.run();
        second.run();
    }
    Times {
        proved: median(&mut proved.timings),
        second: median(&mut second.timings),
        input_bytes,
        answered,
    }
}

/// The number of the refusal of a sheet whose report is longer than the buffer.
const BUFFER_TOO_SHORT: u8 = 9;

/// Writes a report into a buffer, and returns its length or the number of the refusal.
type Report = fn(&[u8], &mut [u8]) -> Result<usize, u8>;

/// The functions of both libraries that write one of the reports.
pub struct Libraries {
    proved: Report,
    second: Report,
}

/// Plans in halves of a circuit.
pub const IN_HALVES: Libraries = Libraries {
    proved: |sheet, buffer| of_proved(waderarmoire::plan(sheet, buffer)),
    second: |sheet, buffer| of_second(second::plan(sheet, buffer)),
};

/// Plans in whole circuits.
pub const IN_CIRCUITS: Libraries = Libraries {
    proved: |sheet, buffer| of_proved(waderarmoire::whole(sheet, buffer)),
    second: |sheet, buffer| of_second(second::whole(sheet, buffer)),
};

/// The bounds of range sheets.
pub const OF_RANGES: Libraries = Libraries {
    proved: |sheet, buffer| of_proved(waderarmoire::ranges(sheet, buffer)),
    second: |sheet, buffer| of_second(second::ranges(sheet, buffer)),
};

fn of_proved(answer: Result<&[u8], waderarmoire::Refusal>) -> Result<usize, u8> {
    answer.map(<[u8]>::len).map_err(|refusal| refusal.number)
}

fn of_second(outcome: Outcome) -> Result<usize, u8> {
    match outcome {
        Outcome::Report { length } => Ok(length),
        Outcome::Refused { number, .. } => Err(number),
    }
}

/// A call of one library and its timings.
struct Timer<Call> {
    call: Call,
    calls: u32,
    timings: Vec<f64>,
}

impl<Call: FnMut()> Timer<Call> {
    fn new(call: Call) -> Self {
        let mut timer = Timer {
            call,
            calls: 1,
            timings: Vec::new(),
        };
        while timer.elapsed() < TIMING {
            timer.calls *= 2;
        }
        timer
    }

    fn elapsed(&mut self) -> Duration {
        (self.call)();
        let start = Instant::now();
        for _ in 0..self.calls {
            (self.call)();
        }
        start.elapsed()
    }

    fn run(&mut self) {
        let elapsed = self.elapsed();
        self.timings
            .push(microseconds(elapsed) / f64::from(self.calls));
    }
}

/// A time in microseconds.
pub fn microseconds(time: Duration) -> f64 {
    time.as_secs_f64() * 1e6
}

/// The middle one of some timings, of an even number the later of the two.
pub fn median(timings: &mut [f64]) -> f64 {
    timings.sort_by(f64::total_cmp);
    timings[timings.len() / 2]
}
