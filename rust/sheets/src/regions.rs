//! Pairs of sheets of neighbouring regions with the answers written out by hand.

use crate::tried::tabbed;

/// The sheets of two regions, and what is written about them.
pub struct Tried {
    /// What the pair is.
    pub title: &'static str,
    sheets: [&'static str; 2],
    text: &'static str,
}

impl Tried {
    /// The sheets.
    #[must_use]
    pub fn sheets(&self) -> [Vec<u8>; 2] {
        self.sheets.map(tabbed)
    }

    /// The answers for both regions, or the refusal.
    #[must_use]
    pub fn text(&self) -> Vec<u8> {
        tabbed(self.text)
    }
}

const HILL: &str = "network 1\nN h\nN a\nN b\nN k\nL h a 3\nL h b 3\nL h k 10\n";
const LAKE: &str = "network 1\nN k\nN c\nN d\nN h\nL h k 10\nL k c 1\nL k d 1\n";
const NO_SHARED_LINK: &str = "refused 0 18 0\n";

/// The pairs.
pub const TRIED: [Tried; 24] = [
    Tried {
        title: "the two halves of a sheet of the scope document",
        sheets: [HILL, LAKE],
        text: "region 1 6\nL h a 3\nL h b 3\nL h k 2\nregion 2 2\nL h k 2\nL k c 1\nL k d 1\n",
    },
    Tried {
        title: "the same, the other region first",
        sheets: [LAKE, HILL],
        text: "region 1 2\nL h k 2\nL k c 1\nL k d 1\nregion 2 6\nL h a 3\nL h b 3\nL h k 2\n",
    },
    Tried {
        title: "names in either case, printed as on the lines of the sites; editions differ",
        sheets: [
            HILL,
            "network 2\nN C\nN H\nN d\nN K\nL k h 10\nL K c 1\nL D K 1\n",
        ],
        text: "region 1 6\nL h a 3\nL h b 3\nL h k 2\nregion 2 2\nL K H 2\nL K C 1\nL d K 1\n",
    },
    Tried {
        title: "the shared sites alone",
        sheets: [
            "network 1\nN a\nN b\nL a b 4\n",
            "network 1\nN b\nN a\nL a b 4\n",
        ],
        text: "region 1 4\nL a b 4\nregion 2 4\nL a b 4\n",
    },
    Tried {
        title: "one region is the shared sites alone",
        sheets: ["network 1\nN h\nN k\nL h k 10\n", LAKE],
        text: "region 1 2\nL h k 2\nregion 2 2\nL h k 2\nL k c 1\nL k d 1\n",
    },
    Tried {
        title: "a path is cut to its smallest link on both sides",
        sheets: [
            "network 1\nN a\nN h\nN k\nL a h 9\nL h k 9\n",
            "network 1\nN h\nN k\nN b\nL h k 9\nL k b 2\n",
        ],
        text: "region 1 2\nL a h 2\nL h k 2\nregion 2 2\nL h k 2\nL k b 2\n",
    },
    Tried {
        title: "the second trimming cuts another link than the shared one",
        sheets: [
            "network 1\nN h\nN a\nN b\nN k\nL h a 5\nL h b 1\nL h k 4\n",
            "network 1\nN h\nN k\nN c\nL h k 4\nL k c 1\n",
        ],
        text: "region 1 3\nL h a 2\nL h b 1\nL h k 1\nregion 2 1\nL h k 1\nL k c 1\n",
    },
    Tried {
        title: "a size of 0 on the other side",
        sheets: [
            "network 1\nN h\nN a\nN b\nN k\nL h a 2\nL h b 1\nL h k 4\n",
            "network 1\nN h\nN k\nN c\nL h k 4\nL k c 0\n",
        ],
        text: "region 1 2\nL h a 1\nL h b 1\nL h k 0\nregion 2 0\nL h k 0\nL k c 0\n",
    },
    Tried {
        title: "a marked site on this side counts each of its links",
        sheets: [
            "network 1\nT h\nN a\nN k\nL h a 5\nL h k 3\n",
            "network 1\nN k\nN c\nN H\nL k c 7\nL H k 3\n",
        ],
        text: "region 1 13\nL h a 5\nL h k 3\nregion 2 3\nL k c 3\nL H k 3\n",
    },
    Tried {
        title: "both sites of the shared link are marked, each on its side",
        sheets: [
            "network 1\nT h\nN a\nN k\nL h a 5\nL h k 3\n",
            "network 1\nT k\nN c\nN h\nL k c 7\nL h k 3\n",
        ],
        text: "region 1 13\nL h a 5\nL h k 3\nregion 2 17\nL k c 7\nL h k 3\n",
    },
    Tried {
        title: "the same usable size, held back otherwise",
        sheets: [
            "network 1\nN a\nN h\nN k\nL a h 9\nL h k 9 2\n",
            "network 1\nN h\nN k\nN b\nL h k 7\nL k b 8 1\n",
        ],
        text: "region 1 7\nL a h 7\nL h k 7\nregion 2 7\nL h k 7\nL k b 7\n",
    },
    Tried {
        title: "the same size, of which one side holds back",
        sheets: [
            "network 1\nN a\nN h\nN k\nL a h 9\nL h k 9 2\n",
            "network 1\nN h\nN k\nN b\nL h k 9\nL k b 7\n",
        ],
        text: NO_SHARED_LINK,
    },
    Tried {
        title: "no name in common",
        sheets: [HILL, "network 1\nN u\nN v\nL u v 10\n"],
        text: NO_SHARED_LINK,
    },
    Tried {
        title: "one name in common",
        sheets: [HILL, "network 1\nN k\nN c\nN u\nL k u 10\nL k c 1\n"],
        text: NO_SHARED_LINK,
    },
    Tried {
        title: "three names in common",
        sheets: [HILL, "network 1\nN k\nN A\nN h\nL h k 10\nL k a 1\n"],
        text: NO_SHARED_LINK,
    },
    Tried {
        title: "the names in common are not linked in the second sheet",
        sheets: [HILL, "network 1\nN k\nN c\nN h\nL h c 10\nL k c 10\n"],
        text: NO_SHARED_LINK,
    },
    Tried {
        title: "a far site is marked",
        sheets: [HILL, "network 1\nN k\nN c\nT h\nL h k 10\nL k c 1\n"],
        text: NO_SHARED_LINK,
    },
    Tried {
        title: "a far site has two links",
        sheets: [
            HILL,
            "network 1\nN k\nN c\nN h\nN e\nL h k 10\nL k c 1\nL h e 1\n",
        ],
        text: NO_SHARED_LINK,
    },
    Tried {
        title: "the same name is far in both sheets",
        sheets: [HILL, "network 1\nN h\nN c\nN k\nL h k 10\nL h c 1\n"],
        text: NO_SHARED_LINK,
    },
    Tried {
        title: "a sheet twice",
        sheets: [HILL, HILL],
        text: NO_SHARED_LINK,
    },
    Tried {
        title: "both sheets are at fault",
        sheets: ["network 1\nN a\nN a\n", "network 1\nN 7\n"],
        text: "refused 1 5 3\n",
    },
    Tried {
        title: "the second sheet is at fault",
        sheets: [HILL, "network 1\nN k\nN h\nL h k 10 11\n"],
        text: "refused 2 13 4\n",
    },
    Tried {
        title: "the first sheet is empty",
        sheets: ["", LAKE],
        text: "refused 1 1 0\n",
    },
    Tried {
        title: "the second sheet is empty, and the first not joined",
        sheets: ["network 1\nN a\nN b\n", ""],
        text: "refused 1 8 0\n",
    },
];
