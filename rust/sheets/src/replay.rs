//! Sheets and booking logs with the answers written out by hand.

use crate::tried::tabbed;

/// A sheet, a log, and the answers to its lines.
pub struct Tried {
    /// What the log is.
    pub title: &'static str,
    sheet: &'static str,
    log: &'static str,
    /// The answers.
    pub answers: &'static [u64],
}

impl Tried {
    /// The sheet.
    #[must_use]
    pub fn sheet(&self) -> Vec<u8> {
        tabbed(self.sheet)
    }

    /// The log.
    #[must_use]
    pub fn log(&self) -> Vec<u8> {
        tabbed(self.log)
    }
}

const STAR: &str = "network 1\nN hub\nN a\nN b\nN c\nL hub a 5\nL hub b 1\nL hub c 1\n";
const TWO: &str = "network 1\nN a\nN b\nL a b 1000000\n";
const PATH: &str = "network 1\nN a\nN h\nN k\nN b\nN c\nL a h 7\nL h k 3\nL k b 5\nL k c 5\n";
const MARKED_STAR: &str = "network 1\nT hub\nN a\nN b\nN c\nL hub a 5\nL hub b 1\nL hub c 1\n";
const MARKED_PATH: &str =
    "network 1\nN a\nT h\nN k\nN b\nN c\nL a h 7\nL h k 3\nL k b 5\nL k c 5\n";

/// The logs.
pub const TRIED: [Tried; 22] = [
    Tried {
        title: "no lines",
        sheet: STAR,
        log: "",
        answers: &[],
    },
    Tried {
        title: "a link filled to twice its size and emptied",
        sheet: STAR,
        log: "+ a b 2\n+ a b 1\n- a b 2\n+ a b 3\n+ a b 2\n",
        answers: &[0, 15, 0, 15, 0],
    },
    Tried {
        title: "two pairs over one link",
        sheet: STAR,
        log: "+ a b 1\n+ c b 1\n+ a b 1\n+ a c 1\n- b c 1\n+ a b 1\n",
        answers: &[0, 0, 15, 0, 0, 0],
    },
    Tried {
        title: "names in either order and either case",
        sheet: STAR,
        log: "+ A b 1\n+ B a 1\n+ b a 1\n- a B 2\n- a b 1\n",
        answers: &[0, 0, 15, 0, 14],
    },
    Tried {
        title: "only what the pair itself has open is given up",
        sheet: STAR,
        log: "+ a b 1\n+ a c 1\n- a b 2\n- b c 1\n- a b 1\n- a b 1\n- a c 1\n",
        answers: &[0, 0, 14, 14, 0, 14, 0],
    },
    Tried {
        title: "an inner link is the smallest",
        sheet: PATH,
        log: "+ a b 7\n+ a b 6\n+ a c 1\n+ b c 4\n+ b c 1\n- a b 1\n+ a c 1\n",
        answers: &[15, 0, 15, 0, 15, 0, 0],
    },
    Tried {
        title: "amounts at their borders",
        sheet: TWO,
        log: "+ a b 2000001\n+ a b 2000000\n- a b 0\n- a b 2000001\n- a b 1\n- a b 1999999\n+ a b 0\n\
              + a b 18446744073709551617\n- a b 1\n",
        answers: &[3, 0, 3, 3, 0, 0, 3, 3, 14],
    },
    Tried {
        title: "names that are not two different ends",
        sheet: STAR,
        log: "+ a hub 1\n+ a a 1\n+ a A 1\n- a d 1\n+ hub b 1\n+ d e 1\n",
        answers: &[6, 6, 6, 6, 6, 6],
    },
    Tried {
        title: "faults of form",
        sheet: STAR,
        log: "* a b 1\n\n++ a b 1\n+ a b\n+ a b 1 1\n+\n-\n+ a-b c 1\n+ a  1\n+ a abcdefghijklm 1\n\
              + a b 01\n+ a b \n+ a b 00\n+ a b 1x\n+ a b 1",
        answers: &[2, 2, 2, 10, 10, 10, 10, 11, 11, 11, 12, 12, 12, 12, 2],
    },
    Tried {
        title: "faults of form before others, and these in their order",
        sheet: STAR,
        log: "* a-b\n+ a-b c\n+ a- hub 01\n+ a hub 01\n+ a hub 0\n+ a hub 9\n+ a d 2000001\n\
              - a hub 9\n- a b 9\n+ a b 9\n",
        answers: &[2, 10, 11, 12, 3, 6, 3, 6, 14, 15],
    },
    Tried {
        title: "a log that is a single unended line",
        sheet: TWO,
        log: "+ a b 1",
        answers: &[2],
    },
    Tried {
        title: "an empty last line",
        sheet: TWO,
        log: "+ a b 1\n\n- a b 1\n\n",
        answers: &[0, 2, 0, 2],
    },
    Tried {
        title: "links with reserves",
        sheet: "network 1\nN a\nN b\nN c\nN h\nL a h 5 3\nL b h 3 0\nL h c 4 4\n",
        log: "+ a b 5\n+ a b 4\n+ b a 1\n+ b c 1\n- a b 4\n",
        answers: &[15, 0, 15, 15, 0],
    },
    Tried {
        title: "links of size 0",
        sheet: "network 1\nN a\nN b\nN c\nN h\nL a h 0\nL b h 3\nL h c 3\n",
        log: "+ a b 1\n- a b 1\n+ b c 6\n+ b c 1\n+ a c 1\n",
        answers: &[15, 14, 0, 15, 15],
    },
    Tried {
        title: "a marked hub: no pair goes through it",
        sheet: MARKED_STAR,
        log: "+ a b 1\n+ a hub 10\n+ HUB a 1\n+ b hub 2\n+ c b 1\n- a b 1\n- hub A 10\n- a hub 1\n",
        answers: &[6, 0, 15, 0, 6, 6, 0, 14],
    },
    Tried {
        title: "a marked site inside: pairs to it on both sides, none across",
        sheet: MARKED_PATH,
        log: "+ a b 1\n- a b 1\n+ a h 14\n+ a h 1\n+ h b 6\n+ c H 1\n+ b c 4\n+ b c 1\n+ h k 1\n\
              - a h 14\n- h a 1\n",
        answers: &[6, 6, 0, 15, 0, 15, 0, 15, 6, 0, 14],
    },
    Tried {
        title: "faults of form and the amount before a pair that is not free, and that before others",
        sheet: MARKED_PATH,
        log: "* a b 1\n+ a b\n+ a- b 1\n+ a b 01\n+ a b 0\n- c a 2000001\n+ a b 2000000\n- c a 2000000\n",
        answers: &[2, 10, 11, 12, 3, 3, 6, 6],
    },
    Tried {
        title: "all sites marked: neighbours alone",
        sheet: "network 1\nT a\nT h\nT k\nT b\nL a h 7\nL h k 3\nL k b 5\n",
        log: "+ a h 14\n+ h k 6\n+ b k 10\n+ a k 1\n+ h b 1\n+ a b 1\n+ k k 1\n+ k h 1\n",
        answers: &[0, 0, 0, 6, 6, 6, 6, 15],
    },
    Tried {
        title: "bare numbers as names",
        sheet: STAR,
        log: "+ 40 a 1\n+ a 40 1\n- 0 b 1\n- b 007 1\n+ 1 1 1\n+ 9 000000000000 1\n+ 123456789012 c 2\n",
        answers: &[17, 17, 17, 17, 17, 17, 17],
    },
    Tried {
        title: "names of digits and others",
        sheet: "network 1\nN 4a\nN a4\nL 4a a4 1\n",
        log: "+ 4a a4 1\n+ 4A A4 1\n+ 4a 4 1\n+ 44 a4 1\n+ 4b a4 1\n+ 1234567890123 a4 1\n- 4a a4 2\n",
        answers: &[0, 0, 17, 17, 6, 11, 0],
    },
    Tried {
        title: "bare numbers after other faults of form but the amount, and before all others",
        sheet: STAR,
        log: "* 40 b 1\n40 a b 1\n+ 40 b\n+ 40 b 1 1\n+ 40 b- 1\n- a- 40 1\n+ 40  1\n+  40 1\n+ 40 b 01\n\
              - a 40 \n+ 40 b 0\n+ a 40 2000001\n+ 40 hub 1\n+ d 40 1\n+ 40 40 1\n- 40 b 9\n+ 40 b 9\n+ 40 b 1",
        answers: &[
            2, 2, 10, 10, 11, 11, 11, 11, 17, 17, 17, 17, 17, 17, 17, 17, 17, 2,
        ],
    },
    Tried {
        title: "a line with a bare number moves nothing",
        sheet: STAR,
        log: "+ a b 2\n+ 40 b 1\n- 40 b 1\n+ a b 1\n- a 40 2\n- a b 2\n- a b 1\n",
        answers: &[0, 17, 17, 15, 17, 0, 14],
    },
];
