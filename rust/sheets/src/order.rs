//! Sheets with the order of work over their sites written out by hand.

use crate::tried::tabbed;

/// An accepted sheet and its order.
pub struct Tried {
    /// What the sheet is.
    pub title: &'static str,
    sheet: &'static str,
    /// The numbers of its sites, in the order taken.
    pub order: &'static [usize],
}

impl Tried {
    /// The sheet.
    #[must_use]
    pub fn sheet(&self) -> Vec<u8> {
        tabbed(self.sheet)
    }
}

/// The sheets.
pub const TRIED: [Tried; 12] = [
    Tried {
        title: "star, hub first",
        sheet: "network 1\nN hub\nN a\nN b\nN c\nL hub a 5\nL hub b 1\nL hub c 1\n",
        order: &[2, 3, 1, 4],
    },
    Tried {
        title: "star, hub second",
        sheet: "network 1\nN a\nN hub\nN b\nN c\nL hub c 1\nL hub b 1\nL hub a 1\n",
        order: &[1, 3, 2, 4],
    },
    Tried {
        title: "star, hub last",
        sheet: "network 1\nN a\nN b\nN c\nN hub\nL hub a 1\nL hub b 1\nL hub c 1\n",
        order: &[1, 2, 3, 4],
    },
    Tried {
        title: "two sites",
        sheet: "network 1\nN a\nN b\nL b a 0\n",
        order: &[1, 2],
    },
    Tried {
        title: "path, numbered along it",
        sheet: "network 1\nN a\nN h\nN k\nN b\nL a h 7\nL h k 3\nL k b 5\n",
        order: &[1, 2, 3, 4],
    },
    Tried {
        title: "path, joints first",
        sheet: "network 1\nN h\nN k\nN a\nN b\nL a h 7\nL h k 3\nL k b 5\n",
        order: &[3, 1, 2, 4],
    },
    Tried {
        title: "path, numbered against it",
        sheet: "network 1\nN e\nN d\nL e d 1\nN c\nL d c 1\nN b\nL c b 1\nN a\nL b a 1\n",
        order: &[1, 2, 3, 4, 5],
    },
    Tried {
        title: "two joints of two ends each",
        sheet: "network 1\nN h\nN k\nN a\nN b\nN c\nN d\n\
                L h k 10\nL h a 3\nL h b 3\nL k c 1\nL k d 1\n",
        order: &[3, 4, 1, 5, 2, 6],
    },
    Tried {
        title: "star, hub first, links with reserves",
        sheet: "network 1\nN hub\nN a\nN b\nN c\nL hub a 5 5\nL hub b 1 0\nL hub c 2 1\n",
        order: &[2, 3, 1, 4],
    },
    Tried {
        title: "star, hub first and marked",
        sheet: "network 1\nT hub\nN a\nT b\nN c\nL hub a 5\nL hub b 1\nL hub c 1\n",
        order: &[2, 3, 1, 4],
    },
    Tried {
        title: "path, joints first and marked",
        sheet: "network 1\nT h\nT k\nN a\nN b\nL a h 7\nL h k 3\nL k b 5\n",
        order: &[3, 1, 2, 4],
    },
    Tried {
        title: "star, hub second, names in either case",
        sheet: "network 1\nN A\nN hub\nN b\nN C\nL HUB c 1\nL Hub B 1\nL a huB 1\n",
        order: &[1, 3, 2, 4],
    },
];
