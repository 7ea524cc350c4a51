//! Random cases told by a seed and an index, compared by two threads.

use crate::Failure;
use std::cell::Cell;
use std::path::Path;
use std::sync::atomic::{AtomicU64, Ordering};
use std::sync::{Mutex, Once};
use std::thread::ScopedJoinHandle;

/// The threads that compare.
const THREADS: u64 = 2;

/// Panics tell their case from the first comparison on.
static TELLING: Once = Once::new();

thread_local! {
    /// The option, the seed and the index of the case a thread compares.
    static CURRENT: Cell<Option<(&str, u64, u64)>> = const { Cell::new(None) };
}

/// Two texts on which something is wrong: a sheet, and another with the extension of the file that keeps it.
pub struct Different {
    pub sheet: Vec<u8>,
    pub other: (&'static str, Vec<u8>),
    pub what: String,
}

impl Different {
    /// Keeps the other text beside the file for the sheet.
    pub fn keep(self, sheet_file: &Path) -> Failure {
        let (extension, text) = self.other;
        let file = sheet_file.with_extension(extension);
        let kept = match std::fs::write(&file, text) {
            Ok(()) => format!("the other text is kept in {}", file.display()),
            Err(error) => format!("the other text cannot be kept: {error}"),
        };
        Failure {
            sheet: Some(self.sheet),
            index: None,
            what: format!("{}\n{kept}", self.what),
        }
    }
}

/// What is told of a case of a seed on which something is wrong.
pub fn told(option: &str, seed: u64, index: u64, what: &str) -> String {
    format!(
        "{option} {index} of seed {seed}: {what}\nmade again by: --seed {seed} --{option} {index}"
    )
}

/// Compares the first `count` cases of a seed, each with what its thread keeps, and returns what both kept; or the
/// lowest case with a difference. The option makes a single case again.
pub fn compare_all<Kept: Send, Found: Send>(
    [seed, count]: [u64; 2],
    option: &'static str,
    new: impl Fn() -> Kept + Sync,
    compare: impl Fn(&mut Kept, u64) -> Result<(), Found> + Sync,
) -> Result<Vec<Kept>, Found> {
    TELLING.call_once(tell_case_on_panic);
    // The lowest case with a difference.
    let lowest = AtomicU64::new(count);
    let found: Mutex<Vec<(u64, Found)>> = Mutex::new(Vec::new());
    let work = |first: u64| {
        let mut kept = new();
        let mut index = first;
        while index < lowest.load(Ordering::Relaxed) {
            CURRENT.set(Some((option, seed, index)));
            if let Err(different) = compare(&mut kept, index) {
                lowest.fetch_min(index, Ordering::Relaxed);
                let mut found = found.lock().expect("no thread panics");
                found.push((index, different));
            }
            index += THREADS;
        }
        kept
    };
    let work = &work;
    let kept = std::thread::scope(|scope| {
        let threads: Vec<_> = (0..THREADS)
            .map(|first| scope.spawn(move || work(first)))
            .collect();
        let kept = threads.into_iter().map(ScopedJoinHandle::join);
        kept.collect::<Result<Vec<Kept>, _>>()
    });
    let found = found.into_inner().expect("no thread panics");
    match found.into_iter().min_by_key(|(index, _)| *index) {
        Some((_, different)) => Err(different),
        None => Ok(kept.expect("no thread panics")),
    }
}

/// Lets a panic tell the case it comes from.
fn tell_case_on_panic() {
    let usual = std::panic::take_hook();
    std::panic::set_hook(Box::new(move |panic| {
        usual(panic);
        if let Some((option, seed, index)) = CURRENT.get() {
            eprintln!("made again by: --seed {seed} --{option} {index}");
        }
    }));
}
