//! The tree circuit planner: a safe interface to its proved static library.
//!
//! A network sheet lists the sites and links of a tree with the number of circuits each link
//! holds, and how many of these are held back. The planner trims every link to what can be used of
//! it, shares the circuits out between the ends of the tree so that their total is the greatest, and
//! shows by the end sets that no plan has more. Amounts are counted in halves of a circuit. [`plan`]
//! shares halves out, [`whole`] whole circuits alone: all its amounts are even, and its total is the
//! greatest among such plans.
//!
//! ```
//! let sheet = b"network\t1\nN\ta\nN\tb\nL\ta\tb\t4\n";
//! let mut buffer = [0; waderarmoire::REPORT_BYTES];
//! let report = waderarmoire::plan(sheet, &mut buffer)?;
//! assert!(report.starts_with(b"plan\t8\t1\n"));
//! assert!(report.ends_with(b"P\ta\tb\t8\n"));
//! # Ok::<(), waderarmoire::Refusal>(())
//! ```
//!
//! Of a star of three links of size 1, three halves can be used, but one whole circuit only:
//!
//! ```
//! let sheet = b"network\t1\nN\thub\nN\ta\nN\tb\nN\tc\nL\thub\ta\t1\nL\thub\tb\t1\nL\thub\tc\t1\n";
//! let mut buffer = [0; waderarmoire::REPORT_BYTES];
//! assert!(waderarmoire::plan(sheet, &mut buffer)?.starts_with(b"plan\t3\t3\n"));
//! assert!(waderarmoire::whole(sheet, &mut buffer)?.starts_with(b"whole\t2\t1\n"));
//! # Ok::<(), waderarmoire::Refusal>(())
//! ```
//!
//! [`order`] lists the sites as they are taken when the sizes are trimmed with a pencil, inward from
//! the outermost ones:
//!
//! ```
//! let sheet = b"network\t1\nN\thub\nN\ta\nN\tb\nN\tc\nL\thub\ta\t1\nL\thub\tb\t1\nL\thub\tc\t1\n";
//! let mut list = [0; waderarmoire::SITES];
//! assert_eq!(waderarmoire::order(sheet, &mut list)?, [2, 3, 1, 4]);
//! # Ok::<(), waderarmoire::Refusal>(())
//! ```
//!
//! A name is 1 to 12 letters or digits, and not digits alone. Two names are the same if they agree when a-z is
//! read as A-Z. A report spells each as on the line of its site:
//!
//! ```
//! let sheet = b"network\t1\nN\tHill\nN\tmill\nL\tHILL\tMill\t4\n";
//! let mut buffer = [0; waderarmoire::REPORT_BYTES];
//! let report = waderarmoire::plan(sheet, &mut buffer)?;
//! assert!(report.starts_with(b"plan\t8\t1\nL\tHill\tmill\t4\t4\n"));
//! # Ok::<(), waderarmoire::Refusal>(())
//! ```
//!
//! A link line may have a fifth field, the reserve. What is left of the size is the usable size, which
//! everything goes by and which the report prints:
//!
//! ```
//! let sheet = b"network\t1\nN\ta\nN\tb\nL\ta\tb\t6\t2\n";
//! let mut buffer = [0; waderarmoire::REPORT_BYTES];
//! let report = waderarmoire::plan(sheet, &mut buffer)?;
//! assert!(report.starts_with(b"plan\t8\t1\nL\ta\tb\t4\t4\n"));
//! # Ok::<(), waderarmoire::Refusal>(())
//! ```
//!
//! The ends of the tree are the sites with one link, and those that the sheet marks by the letter `T` in the
//! place of `N`. No circuit passes through an end, so the tree falls apart at a marked site inside it:
//!
//! ```
//! let sheet = b"network\t1\nN\ta\nT\tm\nN\tb\nL\ta\tm\t2\nL\tm\tb\t3\n";
//! let mut buffer = [0; waderarmoire::REPORT_BYTES];
//! let report = waderarmoire::plan(sheet, &mut buffer)?;
//! assert!(report.starts_with(b"plan\t10\t2\n"));
//! assert!(report.ends_with(b"X\tm\t5\t1\nX\tb\t3\t1\nP\ta\tm\t4\nP\tm\tb\t6\n"));
//! # Ok::<(), waderarmoire::Refusal>(())
//! ```
//!
//! [`replay`] runs a booking log over a sheet: what was opened and given up between two ends, line by
//! line. A line that would overfill a link gets 15, one that gives up more than is open 14:
//!
//! ```
//! let sheet = b"network\t1\nN\ta\nN\tb\nL\ta\tb\t4\n";
//! let log = b"+\ta\tb\t8\n+\tb\ta\t1\n-\tb\ta\t9\n-\ta\tb\t8\n";
//! let mut answers = [0; waderarmoire::LOG_LINES];
//! assert_eq!(waderarmoire::replay(sheet, log, &mut answers)?, [0, 15, 14, 0]);
//! # Ok::<(), waderarmoire::ReplayRefusal>(())
//! ```
//!
//! [`regions`] trims two neighbouring regions that share one link, each with a sheet of its own. Of the other's
//! sheet a region needs to know one number alone, which [`region_first`] tells and [`region_answer`] takes:
//!
//! ```
//! let hill = b"network\t1\nN\th\nN\ta\nN\tb\nN\tk\nL\th\ta\t3\nL\th\tb\t3\nL\th\tk\t10\n";
//! let lake = b"network\t1\nN\tk\nN\tc\nN\td\nN\th\nL\th\tk\t10\nL\tk\tc\t1\nL\tk\td\t1\n";
//! let mut lists = [[0; waderarmoire::LINKS]; 2];
//! let lists = lists.each_mut().map(|list| &mut list[..]);
//! let [one, other] = waderarmoire::regions([hill, lake], lists)?;
//! assert_eq!((one.sizes, one.sum), (&[3, 3, 2][..], 6));
//! assert_eq!((other.sizes, other.sum), (&[2, 1, 1][..], 2));
//! # Ok::<(), waderarmoire::RegionsRefusal>(())
//! ```
//!
//! Before a survey a link is known as between two sizes. [`ranges`] tells of a range sheet, whose links have a low
//! and a high size, within what the total and the trimmed sizes lie:
//!
//! ```
//! let sheet = b"ranges\t1\nN\ta\nN\th\nN\tb\nL\ta\th\t0\t5\nL\th\tb\t1\t2\n";
//! let mut buffer = [0; waderarmoire::REPORT_BYTES];
//! let report = waderarmoire::ranges(sheet, &mut buffer)?;
//! assert_eq!(report, b"span\t0\t4\nL\ta\th\t0\t5\t0\t2\nL\th\tb\t1\t2\t0\t2\n");
//! # Ok::<(), waderarmoire::Refusal>(())
//! ```
//!
//! [`judge`] tells of a plan drawn by hand its total, and whether any fitting plan has more:
//!
//! ```
//! let sheet = b"network\t1\nN\ta\nN\tb\nL\ta\tb\t4\n";
//! let judgement = waderarmoire::judge(sheet, b"P\tb\ta\t7\n")?;
//! assert_eq!((judgement.total, judgement.is_largest), (7, false));
//! let refusal = waderarmoire::judge(sheet, b"P\tb\ta\t9\n").unwrap_err();
//! assert_eq!((refusal.text, refusal.number, refusal.line), (2, 21, 0));
//! # Ok::<(), waderarmoire::JudgeRefusal>(())
//! ```
//!
//! The heading of a sheet tells its edition, and that its limits: under `network`, tab, `1` it may have 256
//! sites and 16,384 bytes, under `network`, tab, `2` 384 sites and 24,576 bytes. Nothing else differs:
//!
//! ```
//! let sheet = b"network\t2\nN\ta\nN\tb\nL\ta\tb\t4\n";
//! let mut buffer = [0; waderarmoire::REPORT_BYTES];
//! assert!(waderarmoire::plan(sheet, &mut buffer)?.starts_with(b"plan\t8\t1\n"));
//! # Ok::<(), waderarmoire::Refusal>(())
//! ```
//!
//! A sheet with a fault is refused with the number of its cause and its line, and says in the
//! words of the program what is wrong:
//!
//! ```
//! let refusal = waderarmoire::plan(b"network\t1\nN\ta\nL\ta\tb\t4\n", &mut []).unwrap_err();
//! assert_eq!((refusal.number, refusal.line), (6, 3));
//! assert_eq!(refusal.to_string(), "line 3: link to a name not given on a line above");
//! ```
//!
//! [`order`] tells sites by their numbers; [`name`] looks up the name of each:
//!
//! ```
//! let sheet = b"network\t1\nN\tHill\nN\tmill\nL\tHILL\tMill\t4\n";
//! assert_eq!(waderarmoire::name(sheet, 1), b"Hill");
//! assert_eq!(waderarmoire::name(sheet, 3), b"");
//! ```
//!
//! # What a call does
//!
//! All functions are safe for every text and every buffer or list, and every call ends. They allocate
//! nothing, keep nothing between calls and have no global state: any number of threads may call them at
//! once, each with a buffer or list of its own. The caller of this crate owes nothing more; what the
//! library below asks, pointers that are not null and areas that do not overlap, slices have.
//!
//! A plan or an order needs at most 168 KiB of stack, whatever the shape of the tree, two regions or a step of
//! one at most 160 KiB, a judgement, a replay or a report on ranges at most 136 KiB: nothing recurses but the digits of a number
//! of nine or more, twenty deep at most (measured on the largest trees, with what a new thread itself needs). A thread of [`STACK_BYTES`] has enough for every
//! sheet and log.
//!
//! # Building
//!
//! The library is built for x86-64 Linux.
//! The archive `libwaderarmoire.a` is looked for in the folder named by the environment variable
//! `WADERARMOIRE_LIB_DIR`, or else in `target/staticlib` at the root of the repository, where
//! `scripts/build waderarmoire` puts it.

mod judge;
mod names;
mod regions;
mod replay;
mod words;

pub use judge::{JudgeRefusal, Judgement, PLAN_BYTES, PLAN_LINES, judge};
pub use names::name;
pub use regions::{LINKS, Region, RegionsRefusal, region_answer, region_first, regions};
pub use replay::{LOG_BYTES, LOG_LINES, ReplayRefusal, replay};
use std::error::Error;
use std::fmt;
use words::Of;

/// The largest sheet that is read, in bytes: one of edition 2. Of edition 1 it has 16,384.
pub const SHEET_BYTES: usize = 24_576;

/// A report buffer of this length is enough for every accepted sheet.
pub const REPORT_BYTES: usize = 65_536;

/// A list of this length is enough for the order of every accepted sheet: one of edition 2 has so many
/// sites at most. Of edition 1 it has 256.
pub const SITES: usize = 384;

/// A thread with a stack of this many bytes can plan every sheet.
pub const STACK_BYTES: usize = 196_608;

/// A function of the library: the sheet and what is lent for the answer, each with its length.
type Function<Place> = unsafe extern "C" fn(*const u8, usize, *mut Place, usize) -> u64;

unsafe extern "C" {
    fn waderarmoire_plan(
        sheet: *const u8,
        sheet_len: usize,
        report: *mut u8,
        report_len: usize,
    ) -> u64;

    fn waderarmoire_whole(
        sheet: *const u8,
        sheet_len: usize,
        report: *mut u8,
        report_len: usize,
    ) -> u64;

    fn waderarmoire_ranges(
        sheet: *const u8,
        sheet_len: usize,
        report: *mut u8,
        report_len: usize,
    ) -> u64;

    fn waderarmoire_order(
        sheet: *const u8,
        sheet_len: usize,
        list: *mut usize,
        list_len: usize,
    ) -> u64;
}

/// Why there is no report, or no order.
#[derive(Clone, Copy, Debug, PartialEq, Eq)]
pub struct Refusal {
    /// The number of the cause:
    ///
    /// - 1: no bytes, or more than 16,384 (edition 2: 24,576)
    /// - 2: wrong heading, letter or line ending
    /// - 3: size or reserve above 1,000,000
    /// - 4: more sites than 256 (edition 2: 384)
    /// - 5: name already given to a site
    /// - 6: link to a name not given on a line above
    /// - 7: link whose sites are already joined by links above, or are one site
    /// - 8: fewer than two sites, or not all sites are joined
    /// - 9: answer longer than the buffer or list for it: the report, of [`order`] the sites, of
    ///   [`region_answer`] the links
    /// - 10: wrong number of fields
    /// - 11: a name is not 1 to 12 letters or digits
    /// - 12: a number is not written in decimal without a leading zero
    /// - 13: reserve above the size
    /// - 17: name of digits only
    /// - 18: of [`region_first`] and [`region_answer`], the two names are not those of a link that can be shared, or
    ///   the number passes its usable size
    /// - 19: of [`ranges`], low size above the high size
    ///
    /// A sheet whose line 1 is no heading is measured by edition 1. Names are read in either case for 5, 6 and
    /// 7. The lowest line with a fault decides; within a line the order is 2, 10, 11, 17, then 4, 5 for a site
    /// and 12, 3, 13 or 19, 6, 7 for a link.
    pub number: u8,
    /// The line at fault, counted from 1, or 0 when no line is.
    pub line: u32,
}

/// The line that the program writes to standard error, without its line feed.
impl fmt::Display for Refusal {
    fn fmt(&self, out: &mut fmt::Formatter<'_>) -> fmt::Result {
        words::write(out, Of::Sheet, self.number, self.line)
    }
}

impl Error for Refusal {}

/// Plans the network of `sheet` in halves of a circuit, writes the report headed `plan` to the start
/// of `buffer` and returns it.
///
/// The bytes after the report keep their values. Nothing is allocated, and threads may plan at
/// once.
///
/// # Errors
///
/// The refusal, if the sheet has a fault or its report is longer than the buffer. The whole
/// buffer then keeps its values.
pub fn plan<'buffer>(sheet: &[u8], buffer: &'buffer mut [u8]) -> Result<&'buffer [u8], Refusal> {
    call(waderarmoire_plan, sheet, buffer)
}

/// Plans the network of `sheet` in whole circuits, writes the report headed `whole` to the start of
/// `buffer` and returns it.
///
/// The bytes after the report keep their values. Nothing is allocated, and threads may plan at
/// once.
///
/// # Errors
///
/// The refusal, if the sheet has a fault or its report is longer than the buffer: for the faults of
/// a sheet the same as [`plan`] tells. The whole buffer then keeps its values.
pub fn whole<'buffer>(sheet: &[u8], buffer: &'buffer mut [u8]) -> Result<&'buffer [u8], Refusal> {
    call(waderarmoire_whole, sheet, buffer)
}

/// Writes the report headed `span` on a range sheet to the start of `buffer` and returns it: within what the
/// total and the trimmed sizes lie when each link has any size from its low to its high one.
///
/// A range sheet is headed `ranges`, tab, `1`, and has the limits of edition 2. Its link lines have a low and a
/// high size and no reserve; everything else is as in other sheets. The report gives the least and the greatest
/// total in halves, then for each link its names, low and high size, and its least and greatest trimmed size.
///
/// The bytes after the report keep their values. Nothing is allocated, and threads may call this at once.
///
/// # Errors
///
/// The refusal, if the sheet has a fault or its report is longer than the buffer. The whole buffer then keeps
/// its values. Of the causes that [`plan`] tells there is no 13; in its place is 19, a low size above the high
/// one. Every sheet is measured by edition 2, whatever its line 1 is.
pub fn ranges<'buffer>(sheet: &[u8], buffer: &'buffer mut [u8]) -> Result<&'buffer [u8], Refusal> {
    call(waderarmoire_ranges, sheet, buffer)
}

/// Writes the numbers of all sites of `sheet`, counted from 1 by their lines, to the start of `list`
/// in the order of work, and returns them.
///
/// The order is that of trimming with a pencil, inward from the outermost sites: always the
/// lowest-numbered untaken site with at most one unvisited link is taken, marked or not. A link is
/// visited once one of its sites is taken.
///
/// The places after the order keep their values. Nothing is allocated, and threads may call this
/// at once.
///
/// # Errors
///
/// The refusal, if the sheet has a fault, the same as [`plan`] tells, or the list has fewer places
/// than there are sites. The whole list then keeps its values.
pub fn order<'list>(sheet: &[u8], list: &'list mut [usize]) -> Result<&'list [usize], Refusal> {
    call(waderarmoire_order, sheet, list)
}

/// Calls one of the functions of the library.
fn call<'lent, Place>(
    function: Function<Place>,
    sheet: &[u8],
    lent: &'lent mut [Place],
) -> Result<&'lent [Place], Refusal> {
    // SAFETY: the pointers and lengths are those of two slices, which do not overlap as one of
    // them is borrowed mutably, and the pointer of an empty slice is not null either. The library
    // reads the sheet and writes what is lent within these lengths, and keeps neither.
    let answer = unsafe { function(sheet.as_ptr(), sheet.len(), lent.as_mut_ptr(), lent.len()) };
    match (answer >> 40) as u8 {
        0 => Ok(&lent[..(answer & 0xf_ffff) as usize]),
        number => Err(Refusal {
            number,
            line: (answer >> 20) as u32 & 0xf_ffff,
        }),
    }
}
