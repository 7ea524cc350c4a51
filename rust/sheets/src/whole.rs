//! Sheets to plan in whole circuits, with what is due written out by hand: the total, and the
//! number of odd pieces and the pairs where no choice of loads and end sets is left.

use crate::tried::tabbed;

/// An accepted sheet, and what is known of its report.
pub struct Tried {
    /// What the sheet is.
    pub title: &'static str,
    sheet: &'static str,
    /// The total in halves.
    pub total: u32,
    odd_pieces: Option<u32>,
    pairs: Option<&'static str>,
}

impl Tried {
    /// The sheet.
    #[must_use]
    pub fn sheet(&self) -> Vec<u8> {
        tabbed(self.sheet)
    }

    /// Whether a report has what is due.
    #[must_use]
    pub fn agrees(&self, report: &[u8]) -> bool {
        let report = String::from_utf8_lossy(report);
        let odd_pieces = report.lines().find_map(|line| line.strip_prefix("Q\t"));
        let mut pairs = report.lines().filter(|line| line.starts_with("P\t"));
        report.starts_with(&format!(
            "whole\t{}\t{}\n",
            self.total,
            pairs.clone().count()
        )) && self
            .odd_pieces
            .is_none_or(|due| odd_pieces == Some(due.to_string().as_str()))
            && self.pairs.is_none_or(|due| {
                let due = tabbed(due);
                String::from_utf8_lossy(&due).lines().eq(pairs.by_ref())
            })
    }
}

/// The sheets.
pub const TRIED: [Tried; 27] = [
    Tried {
        title: "star 1, 1, 1",
        sheet: "network 1\nN hub\nN a\nN b\nN c\nL hub a 1\nL hub b 1\nL hub c 1\n",
        total: 2,
        odd_pieces: Some(1),
        pairs: None,
    },
    Tried {
        title: "star 5, 1, 1",
        sheet: "network 1\nN hub\nN a\nN b\nN c\nL hub a 5\nL hub b 1\nL hub c 1\n",
        total: 4,
        odd_pieces: Some(0),
        pairs: Some("P a b 2\nP a c 2\n"),
    },
    Tried {
        title: "star 3, 1, 1, 1",
        sheet: "network 1\nN hub\nN a\nN b\nN c\nN d\n\
                L hub a 3\nL hub b 1\nL hub c 1\nL hub d 1\n",
        total: 6,
        odd_pieces: Some(0),
        pairs: Some("P a b 2\nP a c 2\nP a d 2\n"),
    },
    Tried {
        title: "star 2, 0, 0",
        sheet: "network 1\nN hub\nN a\nN b\nN c\nL hub a 2\nL hub b 0\nL hub c 0\n",
        total: 0,
        odd_pieces: Some(0),
        pairs: Some(""),
    },
    Tried {
        title: "star 1, 0, 0",
        sheet: "network 1\nN hub\nN a\nN b\nN c\nL hub a 1\nL hub b 0\nL hub c 0\n",
        total: 0,
        odd_pieces: None,
        pairs: Some(""),
    },
    Tried {
        title: "all sizes 0",
        sheet: "network 1\nN h\nN k\nN a\nN b\nN c\nN d\n\
                L h k 0\nL h a 0\nL h b 0\nL k c 0\nL k d 0\n",
        total: 0,
        odd_pieces: Some(0),
        pairs: Some(""),
    },
    Tried {
        title: "two sites, size 3",
        sheet: "network 1\nN a\nN b\nL a b 3\n",
        total: 6,
        odd_pieces: Some(0),
        pairs: Some("P a b 6\n"),
    },
    Tried {
        title: "two sites, size 0",
        sheet: "network 1\nN a\nN b\nL a b 0\n",
        total: 0,
        odd_pieces: Some(0),
        pairs: Some(""),
    },
    Tried {
        title: "path 7, 3, 5",
        sheet: "network 1\nN a\nN h\nN k\nN b\nL a h 7\nL h k 3\nL k b 5\n",
        total: 6,
        odd_pieces: Some(0),
        pairs: Some("P a b 6\n"),
    },
    // The end sets of the report in halves have sizes 6 together.
    Tried {
        title: "two odd joints that one link of size 2 cannot serve",
        sheet: "network 1\nN v\nN t\nN x\nN y\nN a\nN b\nN c\nN d\nL v t 2\nL v x 1\nL v y 1\n\
                L x a 1\nL x b 1\nL y c 1\nL y d 1\n",
        total: 4,
        odd_pieces: None,
        pairs: None,
    },
    // Both joints are odd pieces of their own, as the link between them connects nothing.
    Tried {
        title: "two stars 1, 1, 1 joined by a link of size 0",
        sheet: "network 1\nN h\nN k\nN a\nN b\nN c\nN d\nN e\nN f\nL h k 0\n\
                L h a 1\nL h b 1\nL h c 1\nL k d 1\nL k e 1\nL k f 1\n",
        total: 4,
        odd_pieces: Some(2),
        pairs: None,
    },
    // At each joint the two ends have no other choice than each other.
    Tried {
        title: "two stars joined by a link of size 1",
        sheet: "network 1\nN h\nN k\nN a\nN b\nN c\nN d\nL h k 1\n\
                L h a 1\nL h b 1\nL k c 1\nL k d 1\n",
        total: 4,
        odd_pieces: None,
        pairs: Some("P a b 2\nP c d 2\n"),
    },
    Tried {
        title: "star 5, 1, 1, names in either case",
        sheet: "network 1\nN Hub\nN a\nN B\nN c\nL hub A 5\nL HUB b 1\nL C hUB 1\n",
        total: 4,
        odd_pieces: Some(0),
        pairs: Some("P a B 2\nP a c 2\n"),
    },
    Tried {
        title: "star 2, 2, 2 with reserves of 1",
        sheet: "network 1\nN hub\nN a\nN b\nN c\nL hub a 2 1\nL hub b 2 1\nL hub c 2 1\n",
        total: 2,
        odd_pieces: Some(1),
        pairs: None,
    },
    Tried {
        title: "star 1, 1, 1, one link all held back",
        sheet: "network 1\nN hub\nN a\nN b\nN c\nL hub a 1\nL hub b 1 0\nL hub c 1 1\n",
        total: 2,
        odd_pieces: Some(0),
        pairs: Some("P a b 2\n"),
    },
    Tried {
        title: "star 5, 1, 1 of links with reserves",
        sheet: "network 1\nN hub\nN a\nN b\nN c\nL hub a 1000000 999995\nL hub b 2 1\nL hub c 1 0\n",
        total: 4,
        odd_pieces: Some(0),
        pairs: Some("P a b 2\nP a c 2\n"),
    },
    Tried {
        title: "two stars 1, 1, 1 joined by a link all held back",
        sheet: "network 1\nN h\nN k\nN a\nN b\nN c\nN d\nN e\nN f\nL h k 2 2\n\
                L h a 1\nL h b 1\nL h c 1\nL k d 1\nL k e 1\nL k f 1\n",
        total: 4,
        odd_pieces: Some(2),
        pairs: None,
    },
    Tried {
        title: "two sites, size 5, reserve 2",
        sheet: "network 1\nN a\nN b\nL a b 5 2\n",
        total: 6,
        odd_pieces: Some(0),
        pairs: Some("P a b 6\n"),
    },
    Tried {
        title: "two sites, all held back",
        sheet: "network 1\nN a\nN b\nL a b 5 5\n",
        total: 0,
        odd_pieces: Some(0),
        pairs: Some(""),
    },
    Tried {
        title: "star 1, 1, 1 with its hub marked",
        sheet: "network 1\nT hub\nN a\nN b\nN c\nL hub a 1\nL hub b 1\nL hub c 1\n",
        total: 6,
        odd_pieces: Some(0),
        pairs: Some("P hub a 2\nP hub b 2\nP hub c 2\n"),
    },
    Tried {
        title: "star 1, 1, 1 with an end marked",
        sheet: "network 1\nN hub\nN a\nT b\nN c\nL hub a 1\nL hub b 1\nL hub c 1\n",
        total: 2,
        odd_pieces: Some(1),
        pairs: None,
    },
    Tried {
        title: "path 7, 3, 5 with one inner site marked",
        sheet: "network 1\nN a\nT h\nN k\nN b\nL a h 7\nL h k 3\nL k b 5\n",
        total: 20,
        odd_pieces: Some(0),
        pairs: Some("P a h 14\nP h b 6\n"),
    },
    Tried {
        title: "path 1, 7 with its inner site marked",
        sheet: "network 1\nN a\nT m\nN b\nL a m 1\nL m b 7\n",
        total: 16,
        odd_pieces: Some(0),
        pairs: Some("P a m 2\nP m b 14\n"),
    },
    Tried {
        title: "a marked site with a link that cannot be used up",
        sheet: "network 1\nN a\nT m\nN h\nN b\nN c\nL m a 5\nL m h 9\nL h b 1\nL h c 2\n",
        total: 16,
        odd_pieces: Some(0),
        pairs: Some("P a m 10\nP m b 2\nP m c 4\n"),
    },
    // Each joint is an odd piece: m with either of them would have 3, and no odd piece there.
    Tried {
        title: "two stars 1, 1, 1 that share a marked end",
        sheet: "network 1\nN h\nN k\nT m\nN a\nN b\nN c\nN d\n\
                L h m 1\nL h a 1\nL h b 1\nL k m 1\nL k c 1\nL k d 1\n",
        total: 4,
        odd_pieces: Some(2),
        pairs: None,
    },
    Tried {
        title: "all sites of two joints marked",
        sheet: "network 1\nT h\nT k\nT a\nT b\nT c\nT d\n\
                L h k 10\nL h a 3\nL h b 3\nL k c 1\nL k d 1\n",
        total: 36,
        odd_pieces: Some(0),
        pairs: Some("P h k 20\nP h a 6\nP h b 6\nP k c 2\nP k d 2\n"),
    },
    Tried {
        title: "an unused link between two marked sites",
        sheet: "network 1\nN a\nT h\nT k\nN b\nL a h 3\nL h k 2 2\nL k b 1\n",
        total: 8,
        odd_pieces: Some(0),
        pairs: Some("P a h 6\nP k b 2\n"),
    },
];
