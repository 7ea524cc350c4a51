//! Two regions that share one link.

use crate::Refusal;
use crate::words::{self, Of};
use std::error::Error;
use std::fmt;

/// A list of this length is enough for the trimmed sizes of every accepted sheet: it has a link less than sites.
pub const LINKS: usize = crate::SITES - 1;

unsafe extern "C" {
    fn waderarmoire_regions(
        first: *const u8,
        first_len: usize,
        second: *const u8,
        second_len: usize,
        sizes: *mut u64,
        sizes_len: usize,
        sizes2: *mut u64,
        sizes2_len: usize,
        sums: *mut u64,
    ) -> u64;

    fn waderarmoire_region_first(
        sheet: *const u8,
        sheet_len: usize,
        name: *const u8,
        name_len: usize,
        name2: *const u8,
        name2_len: usize,
    ) -> u64;

    fn waderarmoire_region_answer(
        sheet: *const u8,
        sheet_len: usize,
        name: *const u8,
        name_len: usize,
        name2: *const u8,
        name2_len: usize,
        number: u64,
        sizes: *mut u64,
        sizes_len: usize,
    ) -> u64;
}

/// The answer for a region.
#[derive(Clone, Copy, Debug, PartialEq, Eq)]
pub struct Region<'list> {
    /// Its trimmed sizes, in the order of its links' lines.
    pub sizes: &'list [u64],
    /// Their sum over the links of its own ends, a marked end counting each of its links. The far site counts
    /// for the other region. The sums of two regions add up to the total of the joined tree in halves.
    pub sum: u64,
}

/// Why two regions have no answers.
#[derive(Clone, Copy, Debug, PartialEq, Eq)]
pub struct RegionsRefusal {
    /// The sheet at fault, 1 or 2, or 0 if the two do not share one link.
    pub sheet: u8,
    /// The number of the cause: of a sheet as in [`Refusal`], and
    ///
    /// - 18: the two sheets do not share one link, after all causes of the two; of sheet 0
    /// - 9: more links than places in the list of the region
    pub number: u8,
    /// The line of the sheet at fault, counted from 1, or 0 when no line is.
    pub line: u32,
}

/// The line that the program writes to standard error, without its line feed: which sheet, if it is one, which line
/// if there is one, and the cause in words.
impl fmt::Display for RegionsRefusal {
    fn fmt(&self, out: &mut fmt::Formatter<'_>) -> fmt::Result {
        words::write(out, Of::Regions(self.sheet), self.number, self.line)
    }
}

impl Error for RegionsRefusal {}

/// Trims two regions that share one link, writes the trimmed sizes of each, in the order of its links' lines, to
/// the start of its list, and returns the answers.
///
/// Each sheet holds the shared link, with the site on the other side, the far site, as an unmarked end. Each
/// region is trimmed by itself, the lesser of the two trimmed sizes becomes the size of the shared link, and
/// each is trimmed again. These are the trimmed sizes of the joined tree.
///
/// The sheets share one link if they have in common exactly two names, these joined by a link in both, of equal
/// usable size, one having a single link and no mark in the first sheet, the other so in the second. Their
/// editions may differ, and so may the spellings of names.
///
/// The places after the sizes keep their values. Nothing is allocated, and threads may call this at once.
///
/// # Errors
///
/// The refusal, if the first sheet has a fault, the same as [`plan`](crate::plan) tells, or else the second; if
/// they do not share one link; or if a list has fewer places than its region has links, the first being told.
/// Both lists then keep their values.
pub fn regions<'list>(
    sheets: [&[u8]; 2],
    lists: [&'list mut [u64]; 2],
) -> Result<[Region<'list>; 2], RegionsRefusal> {
    let mut sums = [0; 2];
    let [one, other] = lists;
    let answer = call(sheets, [&mut *one, &mut *other], &mut sums);
    match (answer >> 40) as u8 {
        0 => Ok([
            Region {
                sizes: &one[..(answer >> 20) as usize],
                sum: sums[0],
            },
            Region {
                sizes: &other[..(answer & 0xf_ffff) as usize],
                sum: sums[1],
            },
        ]),
        number => Err(RegionsRefusal {
            sheet: (answer >> 52) as u8,
            number,
            line: line(answer),
        }),
    }
}

/// Calls the function of the library for two sheets.
fn call(sheets: [&[u8]; 2], lists: [&mut [u64]; 2], sums: &mut [u64; 2]) -> u64 {
    let [first, second] = sheets;
    let [sizes, sizes2] = lists;
    // SAFETY: the pointers and lengths are those of four slices and of an array of two numbers. The lists and the
    // array overlap nothing as they are borrowed mutably, and the pointer of an empty slice is not null either.
    // The library reads the sheets and writes the lists and the array within these lengths, and keeps none.
    unsafe {
        waderarmoire_regions(
            first.as_ptr(),
            first.len(),
            second.as_ptr(),
            second.len(),
            sizes.as_mut_ptr(),
            sizes.len(),
            sizes2.as_mut_ptr(),
            sizes2.len(),
            sums.as_mut_ptr(),
        )
    }
}

/// The first step of a region without its neighbour's sheet: its first trimmed size of the link between the two
/// names, which is all that the neighbour needs to know. The names may stand in either order, and in either case.
///
/// # Errors
///
/// The refusal of the sheet, the same as [`plan`](crate::plan) tells; or 18 at line 0 for what this sheet alone shows
/// to be wrong: it does not have the two names, no link joins them, or neither has a single link and no mark.
pub fn region_first(sheet: &[u8], names: [&[u8]; 2]) -> Result<u64, Refusal> {
    let [name, name2] = names;
    // SAFETY: the pointers and lengths are those of three slices, and the pointer of an empty slice is not null
    // either. The library reads them within these lengths, and keeps none.
    let answer = unsafe {
        waderarmoire_region_first(
            sheet.as_ptr(),
            sheet.len(),
            name.as_ptr(),
            name.len(),
            name2.as_ptr(),
            name2.len(),
        )
    };
    match (answer >> 40) as u8 {
        0 => Ok(answer & 0xf_ffff),
        number => Err(Refusal {
            number,
            line: line(answer),
        }),
    }
}

/// The second step: the region's own part of what [`regions`] answers, given the number that the first step of its
/// neighbour tells. Writes the trimmed sizes to the start of `list`; the places after them keep their values.
///
/// ```
/// # let hill = b"network\t1\nN\th\nN\ta\nN\tb\nN\tk\nL\th\ta\t3\nL\th\tb\t3\nL\th\tk\t10\n";
/// # let lake = b"network\t1\nN\tk\nN\tc\nN\td\nN\th\nL\th\tk\t10\nL\tk\tc\t1\nL\tk\td\t1\n";
/// # use waderarmoire::{LINKS, region_answer, region_first};
/// let number = region_first(lake, [b"h", b"k"])?;
/// assert_eq!(number, 2);
/// let mut list = [0; LINKS];
/// let region = region_answer(hill, [b"h", b"k"], number, &mut list)?;
/// assert_eq!((region.sizes, region.sum), (&[3, 3, 2][..], 6));
/// # Ok::<(), waderarmoire::Refusal>(())
/// ```
///
/// # Errors
///
/// As the first step; also 18 if the number passes the usable size of the link, as no first trimmed size does of a
/// neighbour that has the link at the same; and then 9 at line 0 if the list has fewer places than there are links.
/// The whole list then keeps its values.
pub fn region_answer<'list>(
    sheet: &[u8],
    names: [&[u8]; 2],
    number: u64,
    list: &'list mut [u64],
) -> Result<Region<'list>, Refusal> {
    let [name, name2] = names;
    // SAFETY: the pointers and lengths are those of four slices. The list overlaps nothing as it is borrowed mutably,
    // and the pointer of an empty slice is not null either. The library reads the sheet and the names and writes
    // the list within these lengths, and keeps none.
    let answer = unsafe {
        waderarmoire_region_answer(
            sheet.as_ptr(),
            sheet.len(),
            name.as_ptr(),
            name.len(),
            name2.as_ptr(),
            name2.len(),
            number,
            list.as_mut_ptr(),
            list.len(),
        )
    };
    match (answer >> 40) as u8 {
        0 => Ok(Region {
            sizes: &list[..(answer >> 30) as usize],
            sum: answer & 0x3fff_ffff,
        }),
        number => Err(Refusal {
            number,
            line: line(answer),
        }),
    }
}

/// The line of a refusal.
fn line(answer: u64) -> u32 {
    (answer >> 20) as u32 & 0xf_ffff
}

#[cfg(test)]
mod tests {
    use super::call;
    use sheets::joined::Due;
    use sheets::neighbours::case;
    use sheets::tried::refused;

    /// On a refusal the two sums keep their values too, which the interface does not show.
    #[test]
    fn sums_are_kept_on_refusals() {
        let refused = refused();
        let mut refusals = 0;
        for index in 0..2_000 {
            let case = case(3, index, &refused);
            let [one, other] = &case.sheets;
            for short in 0..4 {
                let links = case.links();
                let mut lists = [0, 1].map(|region| vec![7; links[region] - (short >> region & 1)]);
                let places = lists.each_ref().map(Vec::len);
                let mut sums = [u64::MAX, 5];
                let lent = lists.each_mut().map(|list| &mut list[..]);
                let answer = call([one, other], lent, &mut sums);
                let due_sums = match case.due.with_places(places) {
                    Due::Answered(answers) => answers.map(|answer| answer.sum),
                    Due::Refused(..) => [u64::MAX, 5],
                };
                assert_eq!(sums, due_sums, "pair {index}");
                refusals += usize::from(answer >> 40 != 0);
            }
        }
        assert!(refusals > 4_000);
    }
}
