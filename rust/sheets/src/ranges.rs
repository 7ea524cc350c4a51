//! Range sheets with the answers written out by hand.

use crate::tried::tabbed;

/// A range sheet, and what is written about it.
pub struct Tried {
    /// What the sheet is.
    pub title: &'static str,
    sheet: &'static str,
    text: &'static str,
}

impl Tried {
    /// The sheet.
    #[must_use]
    pub fn sheet(&self) -> Vec<u8> {
        tabbed(self.sheet)
    }

    /// The report, or the line of the refusal.
    #[must_use]
    pub fn text(&self) -> Vec<u8> {
        tabbed(self.text)
    }
}

const fn tried(title: &'static str, sheet: &'static str, text: &'static str) -> Tried {
    Tried { title, sheet, text }
}

/// The sheets.
pub const TRIED: [Tried; 44] = [
    tried(
        "two sites",
        "ranges 1\nN a\nN b\nL a b 0 4\n",
        "span 0 8\nL a b 0 4 0 4\n",
    ),
    tried(
        "two sites, one size",
        "ranges 1\nN a\nN b\nL a b 4 4\n",
        "span 8 8\nL a b 4 4 4 4\n",
    ),
    tried(
        "two sites, the size 0",
        "ranges 1\nN a\nN b\nL a b 0 0\n",
        "span 0 0\nL a b 0 0 0 0\n",
    ),
    tried(
        "two sites, the largest range",
        "ranges 1\nN a\nN b\nL b a 0 1000000\n",
        "span 0 2000000\nL b a 0 1000000 0 1000000\n",
    ),
    tried(
        "star with a heavy link among the high sizes",
        "ranges 1\nN hub\nN a\nN b\nN c\nL hub a 1 5\nL hub b 1 1\nL hub c 0 1\n",
        "span 2 4\nL hub a 1 5 1 2\nL hub b 1 1 1 1\nL hub c 0 1 0 1\n",
    ),
    tried(
        "star with a heavy link among the low sizes",
        "ranges 1\nN hub\nN a\nN b\nN c\nL hub a 5 6\nL hub b 1 4\nL hub c 1 4\n",
        "span 4 14\nL hub a 5 6 2 6\nL hub b 1 4 1 4\nL hub c 1 4 1 4\n",
    ),
    tried(
        "a path is cut to its smallest link with either",
        "ranges 1\nN a\nN h\nN k\nN b\nL a h 7 9\nL h k 3 3\nL k b 5 6\n",
        "span 6 6\nL a h 7 9 3 3\nL h k 3 3 3 3\nL k b 5 6 3 3\n",
    ),
    tried(
        "the smallest link is another one with the high sizes",
        "ranges 1\nN a\nN h\nN k\nN b\nL a h 7 7\nL h k 1 20\nL k b 3 9\n",
        "span 2 14\nL a h 7 7 1 7\nL h k 1 20 1 7\nL k b 3 9 1 7\n",
    ),
    tried(
        "no link is as large as its high size lets it be unless the others are",
        "ranges 1\nN a\nN h\nN b\nL a h 0 5\nL h b 0 2\n",
        "span 0 4\nL a h 0 5 0 2\nL h b 0 2 0 2\n",
    ),
    tried(
        "a star that is odd with the low sizes",
        "ranges 1\nN hub\nN a\nN b\nN c\nL hub a 1 2\nL hub b 1 2\nL hub c 1 2\n",
        "span 3 6\nL hub a 1 2 1 2\nL hub b 1 2 1 2\nL hub c 1 2 1 2\n",
    ),
    tried(
        "an end inside the tree counts both its links, and nothing is cut there",
        "ranges 1\nN a\nT m\nN b\nL a m 2 3\nL m b 0 3\n",
        "span 4 12\nL a m 2 3 2 3\nL m b 0 3 0 3\n",
    ),
    tried(
        "the same without the mark",
        "ranges 1\nN a\nN m\nN b\nL a m 2 3\nL m b 0 3\n",
        "span 0 6\nL a m 2 3 0 3\nL m b 0 3 0 3\n",
    ),
    tried(
        "names in either case, printed as on the lines of the sites",
        "ranges 1\nN Hill\nT mill\nL HILL Mill 1 2\n",
        "span 2 4\nL Hill mill 1 2 1 2\n",
    ),
    tried(
        "sites and links mixed, the links in the order of their lines",
        "ranges 1\nN a\nN b\nL b a 1 3\nN c\nL c b 2 2\n",
        "span 2 4\nL b a 1 3 1 2\nL c b 2 2 1 2\n",
    ),
    tried(
        "a joint between two others",
        "ranges 1\nN h\nN k\nN a\nN b\nN c\nN d\nL h k 10 10\nL h a 3 3\nL h b 3 3\nL k c 1 3\nL k d 1 4\n",
        "span 8 13\nL h k 10 10 2 6\nL h a 3 3 3 3\nL h b 3 3 3 3\nL k c 1 3 1 3\nL k d 1 4 1 4\n",
    ),
    tried("no bytes", "", "refused 1 0\n"),
    tried("the heading alone", "ranges 1\n", "refused 8 0\n"),
    tried("one site", "ranges 1\nN a\n", "refused 8 0\n"),
    tried("not joined", "ranges 1\nN a\nN b\n", "refused 8 0\n"),
    tried("the heading is not ended", "ranges 1", "refused 2 1\n"),
    tried(
        "the heading of edition 1",
        "network 1\nN a\nN b\nL a b 1 2\n",
        "refused 2 1\n",
    ),
    tried(
        "the heading of edition 2",
        "network 2\nN a\nN b\nL a b 1 2\n",
        "refused 2 1\n",
    ),
    tried(
        "a second edition of range sheets",
        "ranges 2\nN a\nN b\nL a b 1 2\n",
        "refused 2 1\n",
    ),
    tried(
        "a heading once more",
        "ranges 1\nranges 1\nN a\nN b\nL a b 1 2\n",
        "refused 2 2\n",
    ),
    tried(
        "one size",
        "ranges 1\nN a\nN b\nL a b 1\n",
        "refused 10 4\n",
    ),
    tried(
        "a reserve",
        "ranges 1\nN a\nN b\nL a b 1 2 0\n",
        "refused 10 4\n",
    ),
    tried(
        "the last line is not ended",
        "ranges 1\nN a\nN b\nL a b 1 2",
        "refused 2 4\n",
    ),
    tried(
        "an empty high size",
        "ranges 1\nN a\nN b\nL a b 1 \n",
        "refused 12 4\n",
    ),
    tried(
        "an empty low size",
        "ranges 1\nN a\nN b\nL a b  1\n",
        "refused 12 4\n",
    ),
    tried(
        "a leading zero, and the other number too large",
        "ranges 1\nN a\nN b\nL a b 1000001 02\n",
        "refused 12 4\n",
    ),
    tried(
        "the high size is too large",
        "ranges 1\nN a\nN b\nL a b 1 1000001\n",
        "refused 3 4\n",
    ),
    tried(
        "the low size is too large, and above the high one",
        "ranges 1\nN a\nN b\nL a b 1000001 1\n",
        "refused 3 4\n",
    ),
    tried(
        "both are too large",
        "ranges 1\nN a\nN b\nL a z 1000001 1000002\n",
        "refused 3 4\n",
    ),
    tried(
        "the low size above the high one",
        "ranges 1\nN a\nN b\nL a b 2 1\n",
        "refused 19 4\n",
    ),
    tried(
        "the same, by most",
        "ranges 1\nN a\nN b\nL a b 1000000 0\n",
        "refused 19 4\n",
    ),
    tried(
        "the same on a line with a name that is not given",
        "ranges 1\nN a\nN b\nL a z 2 1\n",
        "refused 19 4\n",
    ),
    tried(
        "the same on a line from a site to itself",
        "ranges 1\nN a\nN b\nL a A 2 1\n",
        "refused 19 4\n",
    ),
    tried(
        "a name that is not given",
        "ranges 1\nN a\nL a b 1 2\nN b\n",
        "refused 6 3\n",
    ),
    tried(
        "a link from a site to itself",
        "ranges 1\nN a\nN b\nL a A 1 2\n",
        "refused 7 4\n",
    ),
    tried(
        "a link between sites that are joined",
        "ranges 1\nN a\nN b\nL a b 1 2\nL b a 1 2\n",
        "refused 7 5\n",
    ),
    tried(
        "a name given twice, in either case",
        "ranges 1\nN a\nT A\nL a b 2 1\n",
        "refused 5 3\n",
    ),
    tried(
        "a bare number before a number badly written",
        "ranges 1\nN a\nN b\nL a 7 2 x\n",
        "refused 17 4\n",
    ),
    tried(
        "a bad name before a bare number",
        "ranges 1\nN a\nN b\nL 7 - 2 1\n",
        "refused 11 4\n",
    ),
    tried(
        "the lowest faulty line decides",
        "ranges 1\nN a\nN b\nL a b 2 1\nL a b 1\nx\n",
        "refused 19 4\n",
    ),
];
