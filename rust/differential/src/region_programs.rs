//! The programs for regions, over files.

use crate::indexed::Different;
use crate::programs::{Expected, Files, Words, run_words};
use crate::regions::different;
use crate::steps;
use second::{Exchanged, SITES};
use sheets::neighbours::{Case, case};
use sheets::tried::refused;
use sheets::{Random, SIZE};
use std::ffi::OsStr;
use std::os::unix::ffi::OsStrExt;
use std::path::PathBuf;
use waderarmoire::RegionsRefusal;

/// Texts in the place of a neighbour's number: badly written, or around the largest size.
const NUMBERS: [&str; 10] = [
    "",
    "07",
    "x",
    "-1",
    "1 ",
    "0",
    "1000000",
    "1000001",
    "99999999999999999999",
    "00",
];

/// The programs for regions: those for both sheets, and those for one step of a region by itself.
pub struct Programs {
    pub proved: [PathBuf; 2],
    pub second: [PathBuf; 2],
}

impl Programs {
    /// Compares what the programs print on `count` pairs, and the examples on some.
    pub fn compare(&self, seed: u64, count: u64, examples: &[PathBuf]) -> Result<(), Different> {
        let files = Files::new("region");
        let refused = refused();
        for index in 0..count {
            let case = case(seed, index, &refused);
            let mut random = Random::new(index);
            let examples = if index % 5 == 0 { examples } else { &[] };
            self.compare_one(&case, &mut random, &files, examples)
                .map_err(|what| different(&case.sheets, what))?;
        }
        println!(
            "programs: {count} pairs of regions, {} of them with {} examples",
            count.div_ceil(5),
            examples.len()
        );
        Ok(())
    }

    fn compare_one(
        &self,
        case: &Case,
        random: &mut Random,
        files: &Files,
        examples: &[PathBuf],
    ) -> Result<(), String> {
        let [one, other] = &case.sheets;
        let files = files.put([one, other])?;
        let mut lists = [[0; SITES]; 2];
        let words = match second::regions([one, other], lists.each_mut().map(|list| &mut list[..]))
        {
            Exchanged::Answered(_) => Words::None,
            Exchanged::Refused {
                sheet,
                number,
                line,
            } => {
                let refusal = RegionsRefusal {
                    sheet,
                    number,
                    line,
                };
                Words::These(format!("{refusal}\n"))
            }
        };
        let due = Expected {
            printed: second::regions_text([one, other]),
            words,
        };
        self.run(0, &files, &due, examples)?;
        for (sheet, file) in case.sheets.iter().zip(files) {
            let (names, number) = steps::any(case, random);
            let [name, name2] = names.each_ref().map(|name| OsStr::from_bytes(name));
            let names = names.each_ref().map(|name| &name[..]);
            let due = step_due(second::region_text(sheet, names, None));
            self.run(1, &[file, name, name2], &due, examples)?;
            // The examples do not look at how the number is written.
            let (text, examples) = if random.once_in(4) {
                (*random.pick(&NUMBERS), &[][..])
            } else {
                let number = number.min(SIZE.into());
                (&*number.to_string(), examples)
            };
            let due = step_due(second::region_text(sheet, names, Some(text.as_bytes())));
            self.run(1, &[file, name, name2, text.as_ref()], &due, examples)?;
        }
        Ok(())
    }

    /// Runs the programs of one kind and the examples, whose word is the name of the program.
    fn run(
        &self,
        kind: usize,
        words: &[&OsStr],
        due: &Expected,
        examples: &[PathBuf],
    ) -> Result<(), String> {
        run_words(&self.proved[kind], words, due)?;
        run_words(&self.second[kind], words, &due.silent())?;
        let name = OsStr::new(["regions", "region"][kind]);
        let words = [&[name], words].concat();
        let due = Expected {
            printed: sizes_alone(&due.printed),
            words: Words::None,
        };
        for example in examples {
            run_words(example, &words, &due)?;
        }
        Ok(())
    }
}

/// What the program for one step must print, and that it says a refusal in a line.
fn step_due(printed: Vec<u8>) -> Expected {
    let words = if printed.starts_with(b"refused") {
        Words::OneLine
    } else {
        Words::None
    };
    Expected { printed, words }
}

/// The same with sizes alone on the lines of links, as the examples print it.
fn sizes_alone(text: &[u8]) -> Vec<u8> {
    let lines = text.split_inclusive(|&byte| byte == b'\n');
    let line = |line: &[u8]| match line.strip_prefix(b"L\t") {
        Some(fields) => fields
            .rsplit(|&byte| byte == b'\t')
            .next()
            .map(<[u8]>::to_vec),
        None => Some(line.to_vec()),
    };
    lines.filter_map(line).collect::<Vec<_>>().concat()
}
