//! Sheets and plans drawn by hand, with what is due of them written out.

use crate::drawn::Due::{self, Judged, Refused};
use crate::tried::tabbed;

/// A sheet, a plan, and what is due of it.
pub struct Tried {
    /// What the plan is.
    pub title: &'static str,
    sheet: &'static str,
    plan: &'static str,
    /// What is due.
    pub due: Due,
}

impl Tried {
    /// The sheet.
    #[must_use]
    pub fn sheet(&self) -> Vec<u8> {
        tabbed(self.sheet)
    }

    /// The plan.
    #[must_use]
    pub fn plan(&self) -> Vec<u8> {
        tabbed(self.plan)
    }
}

const fn tried(title: &'static str, sheet: &'static str, plan: &'static str, due: Due) -> Tried {
    Tried {
        title,
        sheet,
        plan,
        due,
    }
}

const STAR: &str = "network 1\nN hub\nN a\nN b\nN c\nL hub a 5\nL hub b 1\nL hub c 1\n";
const ONES: &str = "network 1\nN hub\nN a\nN b\nN c\nL hub a 1\nL hub b 1\nL hub c 1\n";
const FOUR: &str =
    "network 2\nN hub\nN a\nN b\nN c\nN d\nL hub a 1\nL hub b 1\nL hub c 1\nL hub d 1\n";
const TWO: &str = "network 1\nN a\nN b\nL a b 1000000\n";
const NONE: &str = "network 1\nN a\nN b\nL a b 0\n";
const TREE: &str =
    "network 1\nN h\nN k\nN a\nN b\nN c\nN d\nL h k 10\nL h a 3\nL h b 3\nL k c 1\nL k d 1\n";
const MARKED_PATH: &str =
    "network 1\nN a\nT h\nN k\nN b\nN c\nL a h 7\nL h k 3\nL k b 5\nL k c 5\n";
const RESERVES: &str = "network 1\nN a\nN b\nN c\nN h\nL a h 5 3\nL b h 3 0\nL h c 4 4\n";

/// The plans.
pub const TRIED: [Tried; 51] = [
    tried(
        "the pairs of the report",
        STAR,
        "P a b 2\nP a c 2\n",
        Judged(4, true),
    ),
    tried(
        "the same in another order, names exchanged",
        STAR,
        "P c A 2\nP B a 2\n",
        Judged(4, true),
    ),
    tried(
        "one half less",
        STAR,
        "P a b 2\nP a c 1\n",
        Judged(3, false),
    ),
    tried(
        "one half more",
        STAR,
        "P a b 2\nP a c 3\n",
        Refused(2, 21, 0),
    ),
    tried("a pair less", STAR, "P a b 2\n", Judged(2, false)),
    tried(
        "a plan that fills links and has less",
        STAR,
        "P b c 2\n",
        Judged(2, false),
    ),
    tried(
        "a pair twice",
        STAR,
        "P a b 1\nP a c 2\nP a b 1\n",
        Refused(2, 20, 3),
    ),
    tried(
        "a pair twice, names exchanged",
        STAR,
        "P a b 1\nP B a 1\nP a c 2\n",
        Refused(2, 20, 2),
    ),
    tried(
        "an empty plan with circuits left",
        STAR,
        "",
        Judged(0, false),
    ),
    tried(
        "an empty plan where nothing fits",
        NONE,
        "",
        Judged(0, true),
    ),
    tried("nothing fits", NONE, "P a b 1\n", Refused(2, 21, 0)),
    tried(
        "three pairs of a half each",
        ONES,
        "P a b 1\nP b c 1\nP c a 1\n",
        Judged(3, true),
    ),
    tried(
        "the largest in whole circuits",
        ONES,
        "P a b 2\n",
        Judged(2, false),
    ),
    tried(
        "other pairs than those of the report, crossed",
        FOUR,
        "P a b 2\nP c d 2\n",
        Judged(4, true),
    ),
    tried(
        "the same total in other pairs",
        FOUR,
        "P a c 2\nP b d 2\n",
        Judged(4, true),
    ),
    tried(
        "the same total in four pairs",
        FOUR,
        "P a b 1\nP b c 1\nP c d 1\nP d a 1\n",
        Judged(4, true),
    ),
    tried(
        "three pairs over four links",
        FOUR,
        "P a b 1\nP b c 1\nP c a 1\n",
        Judged(3, false),
    ),
    tried(
        "a link trimmed inside",
        TREE,
        "P a b 4\nP a c 2\nP b d 2\n",
        Judged(8, true),
    ),
    tried(
        "the same total with other pairs",
        TREE,
        "P a b 4\nP d a 2\nP b c 2\n",
        Judged(8, true),
    ),
    tried(
        "the links of the ends not filled",
        TREE,
        "P a b 5\nP a c 1\nP b d 1\n",
        Judged(7, false),
    ),
    tried(
        "pairs on one side of an inner link",
        TREE,
        "P a b 6\nP c d 2\n",
        Judged(8, true),
    ),
    tried(
        "an inner link overfilled alone",
        "network 1\nN h\nN k\nN a\nN b\nN c\nN d\nL h k 1\nL h a 3\nL h b 3\nL k c 3\nL k d 3\n",
        "P a c 2\nP b d 1\n",
        Refused(2, 21, 0),
    ),
    tried(
        "an inner link filled",
        "network 1\nN h\nN k\nN a\nN b\nN c\nN d\nL h k 1\nL h a 3\nL h b 3\nL k c 3\nL k d 3\n",
        "P a c 2\nP a b 4\nP c d 4\n",
        Judged(10, false),
    ),
    tried(
        "the same with the largest total",
        "network 1\nN h\nN k\nN a\nN b\nN c\nN d\nL h k 1\nL h a 3\nL h b 3\nL k c 3\nL k d 3\n",
        "P a b 6\nP c d 6\n",
        Judged(12, true),
    ),
    tried(
        "amounts at their borders",
        TWO,
        "P a b 2000000\n",
        Judged(2_000_000, true),
    ),
    tried("an amount above", TWO, "P a b 2000001\n", Refused(2, 3, 1)),
    tried("an amount of nothing", TWO, "P a b 0\n", Refused(2, 3, 1)),
    tried(
        "a very long amount",
        TWO,
        "P a b 18446744073709551617\n",
        Refused(2, 3, 1),
    ),
    tried(
        "one half less than all",
        TWO,
        "P b A 1999999\n",
        Judged(1_999_999, false),
    ),
    tried("a joint", STAR, "P a b 2\nP hub c 1\n", Refused(2, 6, 2)),
    tried("an end with itself", STAR, "P a A 1\n", Refused(2, 6, 1)),
    tried("an unknown name", STAR, "P a d 1\n", Refused(2, 6, 1)),
    tried("3 before 6", STAR, "P a hub 0\n", Refused(2, 3, 1)),
    tried("3 before 20", STAR, "P a b 1\nP a b 0\n", Refused(2, 3, 2)),
    tried(
        "the lowest line decides: 6 before a later 20",
        STAR,
        "P a b 1\nP a hub 1\nP b a 1\n",
        Refused(2, 6, 2),
    ),
    tried(
        "the lowest line decides: 20 before a later 6",
        STAR,
        "P a b 1\nP b a 1\nP a hub 1\n",
        Refused(2, 20, 2),
    ),
    tried(
        "a fault of a line before 21 of lines above it",
        STAR,
        "P a b 3\nP a c 9\nP b c 01\n",
        Refused(2, 12, 3),
    ),
    tried(
        "20 before 21",
        STAR,
        "P a b 3\nP b a 1\n",
        Refused(2, 20, 2),
    ),
    tried(
        "another letter",
        STAR,
        "P a b 1\n+ a c 1\n",
        Refused(2, 2, 2),
    ),
    tried("a small letter", STAR, "p a b 1\n", Refused(2, 2, 1)),
    tried("an empty line", STAR, "P a b 1\n\n", Refused(2, 2, 2)),
    tried(
        "an unended last line",
        STAR,
        "P a b 2\nP a c 2",
        Refused(2, 2, 2),
    ),
    tried("10 before 11", STAR, "P a- b 1 1\n", Refused(2, 10, 1)),
    tried("11 before 17", STAR, "P 40 b- 1\n", Refused(2, 11, 1)),
    tried("17 before 12", STAR, "P a 40 01\n", Refused(2, 17, 1)),
    tried("12 before 6", STAR, "P a hub 01\n", Refused(2, 12, 1)),
    tried(
        "a marked site: pairs to it on both sides",
        MARKED_PATH,
        "P a h 14\nP h b 6\nP b c 4\n",
        Judged(24, false),
    ),
    tried(
        "a marked site: the largest total",
        MARKED_PATH,
        "P a H 14\nP h b 3\nP c h 3\nP b c 7\n",
        Judged(27, true),
    ),
    tried(
        "a pair with another end between",
        MARKED_PATH,
        "P a h 13\nP a b 1\n",
        Refused(2, 6, 2),
    ),
    tried(
        "links with reserves",
        RESERVES,
        "P a b 4\n",
        Judged(4, true),
    ),
    tried(
        "a reserve used",
        RESERVES,
        "P a b 4\nP b c 1\n",
        Refused(2, 21, 0),
    ),
];
