//! The options.

use crate::programs::beside_this_program;
use std::path::{Path, PathBuf};

/// The page that `--help` prints.
pub const HELP: &str = include_str!("../help");

/// What is to be compared.
pub struct Options {
    pub sheets: u64,
    pub seed: u64,
    pub only: Option<u64>,
    /// The file for a sheet with a difference, if one is named.
    pub keep: Option<PathBuf>,
    pub runs: u64,
    /// The folder of the proved programs.
    folder: PathBuf,
    /// Programs over the proved library that take words.
    pub examples: Vec<PathBuf>,
    pub planted: Option<u64>,
    pub logs: u64,
    pub only_log: Option<u64>,
    pub pairs: u64,
    pub only_pair: Option<u64>,
    pub surveys: u64,
    pub only_survey: Option<u64>,
    pub plans: u64,
    pub only_plan: Option<u64>,
    pub shuffles: u64,
    pub only_shuffle: Option<u64>,
}

impl Options {
    /// The options that this program was started with, or none if the page about them is asked for.
    pub fn told() -> Result<Option<Self>, String> {
        let mut options = Self::usual();
        let mut arguments = std::env::args().skip(1);
        while let Some(option) = arguments.next() {
            if ["-h", "--help"].contains(&option.as_str()) {
                return Ok(None);
            }
            options.set(&option, arguments.next().as_deref())?;
        }
        Ok(Some(options))
    }

    fn usual() -> Self {
        Options {
            sheets: 230_000,
            seed: 1,
            only: None,
            keep: None,
            runs: 300,
            folder: PathBuf::from("target/bin"),
            examples: Vec::new(),
            planted: None,
            logs: 30_000,
            only_log: None,
            pairs: 30_000,
            only_pair: None,
            surveys: 40_000,
            only_survey: None,
            plans: 30_000,
            only_plan: None,
            shuffles: 25_000,
            only_shuffle: None,
        }
    }

    fn set(&mut self, option: &str, value: Option<&str>) -> Result<(), String> {
        let file = || value.map(PathBuf::from);
        let file = || file().ok_or_else(|| format!("{option} needs a name"));
        let number = || value.and_then(|value| value.parse().ok());
        let number = || number().ok_or_else(|| format!("{option} needs a number"));
        match option {
            "--sheets" => self.sheets = number()?,
            "--seed" => self.seed = number()?,
            "--only" => self.only = Some(number()?),
            "--keep" => self.keep = Some(file()?),
            "--runs" => self.runs = number()?,
            "--programs" => self.folder = file()?,
            "--example" => self.examples.push(file()?),
            "--planted" => {
                plant(number()?)?;
                self.planted = Some(number()?);
            }
            "--logs" => self.logs = number()?,
            "--log" => self.only_log = Some(number()?),
            "--pairs" => self.pairs = number()?,
            "--pair" => self.only_pair = Some(number()?),
            "--surveys" => self.surveys = number()?,
            "--survey" => self.only_survey = Some(number()?),
            "--plans" => self.plans = number()?,
            "--plan" => self.only_plan = Some(number()?),
            "--shuffles" => self.shuffles = number()?,
            "--shuffle" => self.only_shuffle = Some(number()?),
            _ => return Err(format!("there is no option {option}")),
        }
        Ok(())
    }

    /// The file that keeps a sheet with a difference.
    pub fn kept(&self) -> &Path {
        self.keep.as_deref().unwrap_or("differing.sheet".as_ref())
    }

    /// The proved programs of these names, and those of the second planner.
    pub fn programs<const COUNT: usize>(&self, names: [&str; COUNT]) -> [[PathBuf; COUNT]; 2] {
        let second = |name| beside_this_program(&format!("second-{name}"));
        [names.map(|name| self.folder.join(name)), names.map(second)]
    }
}

#[cfg(feature = "planted")]
fn plant(number: u64) -> Result<(), String> {
    let errors = second::planted::ERRORS;
    let error = errors
        .iter()
        .copied()
        .find(|&error| error as u64 == number)
        .ok_or_else(|| format!("errors are numbered from 1 to {}", errors.len()))?;
    println!("planted in the second planner: {error:?}");
    second::planted::plant(error);
    Ok(())
}

#[cfg(not(feature = "planted"))]
fn plant(_: u64) -> Result<(), String> {
    Err("--planted needs a build with the feature `planted`".to_string())
}
