//! Refusals in words, by the one table of the library.

use std::fmt;

/// A line of words has fewer bytes than this.
const WORDS_BYTES: usize = 256;

unsafe extern "C" {
    fn waderarmoire_words(number: u64, line: usize, text: *mut u8, text_len: usize) -> usize;
    fn waderarmoire_words_of_replay(
        of: u64,
        number: u64,
        line: usize,
        text: *mut u8,
        text_len: usize,
    ) -> usize;
    fn waderarmoire_words_of_regions(
        of: u64,
        number: u64,
        line: usize,
        text: *mut u8,
        text_len: usize,
    ) -> usize;
    fn waderarmoire_words_of_judge(
        of: u64,
        number: u64,
        line: usize,
        text: *mut u8,
        text_len: usize,
    ) -> usize;
}

/// What is refused.
#[derive(Clone, Copy)]
pub(crate) enum Of {
    Sheet,
    Replay(u8),
    Regions(u8),
    Judge(u8),
}

/// Writes what a refusal means, without the line feed.
pub(crate) fn write(out: &mut fmt::Formatter<'_>, of: Of, number: u8, line: u32) -> fmt::Result {
    let mut text = [0; WORDS_BYTES];
    let (number, line) = (u64::from(number), line as usize);
    let (start, room) = (text.as_mut_ptr(), text.len());
    // SAFETY: the pointer and the length are those of an array that nothing else borrows. The library writes
    // within this length and keeps nothing.
    let length = unsafe {
        match of {
            Of::Sheet => waderarmoire_words(number, line, start, room),
            Of::Replay(text) => {
                waderarmoire_words_of_replay(text.into(), number, line, start, room)
            }
            Of::Regions(sheet) => {
                waderarmoire_words_of_regions(sheet.into(), number, line, start, room)
            }
            Of::Judge(text) => waderarmoire_words_of_judge(text.into(), number, line, start, room),
        }
    };
    let words = String::from_utf8_lossy(&text[..length.min(room)]);
    out.write_str(words.trim_end_matches('\n'))
}
