//! Reads one sheet on standard input and writes the report, or the line `refused`, tab, number,
//! tab, line. With the word `whole` behind its name it plans in whole circuits; with the word `ranges` it
//! writes the report headed `span` on a range sheet; with the word `order` it writes the numbers of the
//! sites in the order of work, one a line. With the word `replay` and the names of two files, a sheet and a
//! booking log, it writes the answers to the lines of the log, one a line, or the line `refused`, tab, text,
//! tab, number, tab, line.
//!
//! With the word `regions` and the names of two files, the sheets of two regions that share one link, it writes
//! of each `region`, tab, its number, tab, its sum, and its trimmed sizes, one a line; or the line `refused`,
//! tab, sheet, tab, number, tab, line. With the word `region`, the name of a sheet's file and the two shared
//! names it writes `first`, tab, its first trimmed size of the shared link; with the neighbour's number behind
//! them its own part of the answer, headed `region`, tab, its sum.
//!
//! With the word `judge` and the names of two files, a sheet and a plan drawn by hand, it writes the line `judged`,
//! tab, total in halves, tab, `yes` or `no`, or a refusal as of a log.

use std::io::{Read, Write, stdin, stdout};
use waderarmoire::{JudgeRefusal, judge};
use waderarmoire::{LINKS, RegionsRefusal, region_answer, region_first, regions};
use waderarmoire::{LOG_LINES, ReplayRefusal, replay};
use waderarmoire::{REPORT_BYTES, Refusal, SHEET_BYTES, SITES, order, plan, ranges, whole};

fn main() -> std::io::Result<()> {
    let words: Vec<String> = std::env::args().skip(1).collect();
    if let [word, file, rest @ ..] = &words[..] {
        let text = std::fs::read(file);
        match (word.as_str(), rest) {
            ("replay", [log]) => return write(&answers(&text?, &std::fs::read(log)?)),
            ("judge", [plan]) => return write(&judgement(&text?, &std::fs::read(plan)?)),
            ("regions", [other]) => return write(&trimmed(&text?, &std::fs::read(other)?)),
            ("region", [one, other]) => {
                return write(&first(&text?, [one.as_bytes(), other.as_bytes()]));
            }
            ("region", [one, other, number]) => {
                let number = number.parse().map_err(std::io::Error::other)?;
                return write(&second(&text?, [one.as_bytes(), other.as_bytes()], number));
            }
            _ => (),
        }
    }
    // One byte more than a sheet may have shows that it has too many.
    let mut sheet = Vec::new();
    stdin()
        .take(SHEET_BYTES as u64 + 1)
        .read_to_end(&mut sheet)?;
    let answer = match words.first().map(String::as_str) {
        Some("order") => numbers(&sheet),
        Some("ranges") => ranges(&sheet, &mut [0; REPORT_BYTES]).map(<[u8]>::to_vec),
        Some("whole") => whole(&sheet, &mut [0; REPORT_BYTES]).map(<[u8]>::to_vec),
        _ => plan(&sheet, &mut [0; REPORT_BYTES]).map(<[u8]>::to_vec),
    };
    let mut out = stdout();
    match answer {
        Ok(text) => out.write_all(&text)?,
        Err(Refusal { number, line }) => writeln!(out, "refused\t{number}\t{line}")?,
    }
    out.flush()
}

/// Writes a text to standard output.
fn write(text: &str) -> std::io::Result<()> {
    stdout().write_all(text.as_bytes())
}

/// The numbers of the sites in the order of work, one a line.
fn numbers(sheet: &[u8]) -> Result<Vec<u8>, Refusal> {
    let mut list = [0; SITES];
    let mut lines = Vec::new();
    for number in order(sheet, &mut list)? {
        lines.extend_from_slice(number.to_string().as_bytes());
        lines.push(b'\n');
    }
    Ok(lines)
}

/// The answers to the lines of a log, one a line, or the refusal.
fn answers(sheet: &[u8], log: &[u8]) -> String {
    match replay(sheet, log, &mut [0; LOG_LINES]) {
        Ok(answers) => lines(answers),
        Err(ReplayRefusal { text, number, line }) => format!("refused\t{text}\t{number}\t{line}\n"),
    }
}

/// Numbers, one a line.
fn lines(numbers: &[u64]) -> String {
    let mut lines: Vec<String> = numbers.iter().map(u64::to_string).collect();
    lines.push(String::new());
    lines.join("\n")
}

/// The answers for two regions, or the refusal.
fn trimmed(one: &[u8], other: &[u8]) -> String {
    let mut lists = [[0; LINKS]; 2];
    match regions([one, other], lists.each_mut().map(|list| &mut list[..])) {
        Ok([one, other]) => format!(
            "region\t1\t{}\n{}region\t2\t{}\n{}",
            one.sum,
            lines(one.sizes),
            other.sum,
            lines(other.sizes)
        ),
        Err(RegionsRefusal {
            sheet,
            number,
            line,
        }) => format!("refused\t{sheet}\t{number}\t{line}\n"),
    }
}

/// What the first step of a region tells, or the refusal.
fn first(sheet: &[u8], names: [&[u8]; 2]) -> String {
    region_first(sheet, names).map_or_else(refused, |size| format!("first\t{size}\n"))
}

/// What a region is given in the second step, or the refusal.
fn second(sheet: &[u8], names: [&[u8]; 2], number: u64) -> String {
    region_answer(sheet, names, number, &mut [0; LINKS]).map_or_else(refused, |region| {
        format!("region\t{}\n{}", region.sum, lines(region.sizes))
    })
}

/// The line of a refusal.
fn refused(Refusal { number, line }: Refusal) -> String {
    format!("refused\t{number}\t{line}\n")
}

/// What is said of a plan drawn by hand, or the refusal.
fn judgement(sheet: &[u8], plan: &[u8]) -> String {
    match judge(sheet, plan) {
        Ok(judgement) => {
            let answer = if judgement.is_largest { "yes" } else { "no" };
            format!("judged\t{}\t{answer}\n", judgement.total)
        }
        Err(JudgeRefusal { text, number, line }) => format!("refused\t{text}\t{number}\t{line}\n"),
    }
}
