//! The sheets to try of the scope document and a few more, with answers written out by hand.
//!
//! Texts are written here with a space where a tab stands in them, and `~` where a space does.

use crate::Edition;

/// An accepted sheet and its report.
pub struct Accepted {
    /// What the sheet is.
    pub title: &'static str,
    sheet: &'static str,
    report: &'static str,
}

impl Accepted {
    /// The sheet.
    #[must_use]
    pub fn sheet(&self) -> Vec<u8> {
        tabbed(self.sheet)
    }

    /// The whole report.
    #[must_use]
    pub fn report(&self) -> Vec<u8> {
        tabbed(self.report)
    }
}

/// A refused sheet.
pub struct Refused {
    /// What the sheet is.
    pub title: &'static str,
    /// The sheet.
    pub sheet: Vec<u8>,
    /// The number of the refusal.
    pub number: u8,
    /// The line of the refusal.
    pub line: u32,
}

pub(crate) fn tabbed(text: &str) -> Vec<u8> {
    text.replace(' ', "\t").replace('~', " ").into_bytes()
}

/// The accepted sheets.
pub const ACCEPTED: [Accepted; 43] = [
    Accepted {
        title: "star 1, 1, 1",
        sheet: "network 1\nN hub\nN a\nN b\nN c\nL hub a 1\nL hub b 1\nL hub c 1\n",
        report: "\
plan 3 3
L hub a 1 1
L hub b 1 1
L hub c 1 1
N hub -
N a a
N b b
N c c
X a 1 1
X b 1 1
X c 1 1
P a b 1
P a c 1
P b c 1
",
    },
    Accepted {
        title: "star 5, 1, 1",
        sheet: "network 1\nN hub\nN a\nN b\nN c\nL hub a 5\nL hub b 1\nL hub c 1\n",
        report: "\
plan 4 2
L hub a 5 2
L hub b 1 1
L hub c 1 1
N hub a
N a a
N b b
N c c
X a 2 2
X b 1 1
X c 1 1
P a b 2
P a c 2
",
    },
    Accepted {
        title: "star 3, 1, 1, 1",
        sheet: "network 1\nN hub\nN a\nN b\nN c\nN d\n\
                L hub a 3\nL hub b 1\nL hub c 1\nL hub d 1\n",
        report: "\
plan 6 3
L hub a 3 3
L hub b 1 1
L hub c 1 1
L hub d 1 1
N hub -
N a a
N b b
N c c
N d d
X a 3 1
X b 1 1
X c 1 1
X d 1 1
P a b 2
P a c 2
P a d 2
",
    },
    Accepted {
        title: "star 4, 1, 1, 1",
        sheet: "network 1\nN hub\nN a\nN b\nN c\nN d\n\
                L hub a 4\nL hub b 1\nL hub c 1\nL hub d 1\n",
        report: "\
plan 6 3
L hub a 4 3
L hub b 1 1
L hub c 1 1
L hub d 1 1
N hub a
N a a
N b b
N c c
N d d
X a 3 2
X b 1 1
X c 1 1
X d 1 1
P a b 2
P a c 2
P a d 2
",
    },
    Accepted {
        title: "star 2, 0, 0",
        sheet: "network 1\nN hub\nN a\nN b\nN c\nL hub a 2\nL hub b 0\nL hub c 0\n",
        report: "\
plan 0 0
L hub a 2 0
L hub b 0 0
L hub c 0 0
N hub a
N a a
N b b
N c c
X a 0 2
X b 0 1
X c 0 1
",
    },
    Accepted {
        title: "path 7, 3, 5",
        sheet: "network 1\nN a\nN h\nN k\nN b\nL a h 7\nL h k 3\nL k b 5\n",
        report: "\
plan 6 1
L a h 7 3
L h k 3 3
L k b 5 3
N a a
N h a
N k b
N b b
X a 3 2
X b 3 2
P a b 6
",
    },
    Accepted {
        title: "two sites, size 4",
        sheet: "network 1\nN a\nN b\nL a b 4\n",
        report: "\
plan 8 1
L a b 4 4
N a a
N b b
X a 4 1
X b 4 1
P a b 8
",
    },
    Accepted {
        title: "two sites, size 0",
        sheet: "network 1\nN a\nN b\nL a b 0\n",
        report: "\
plan 0 0
L a b 0 0
N a a
N b b
X a 0 1
X b 0 1
",
    },
    Accepted {
        title: "two joints",
        sheet: "network 1\nN h\nN k\nN a\nN b\nN c\nN d\n\
                L h k 10\nL h a 3\nL h b 3\nL k c 1\nL k d 1\n",
        report: "\
plan 8 3
L h k 10 2
L h a 3 3
L h b 3 3
L k c 1 1
L k d 1 1
N h -
N k -
N a a
N b b
N c c
N d d
X a 3 1
X b 3 1
X c 1 1
X d 1 1
P a b 4
P a c 2
P b d 2
",
    },
    Accepted {
        title: "size 1,000,000, the link named from its later site",
        sheet: "network 1\nN a\nN b\nL b a 1000000\n",
        report: "\
plan 2000000 1
L b a 1000000 1000000
N a a
N b b
X a 1000000 1
X b 1000000 1
P a b 2000000
",
    },
    Accepted {
        title: "path 3, 7, its first end given first",
        sheet: "network 1\nN a\nN h\nN b\nL a h 3\nL h b 7\n",
        report: "\
plan 6 1
L a h 3 3
L h b 7 3
N a a
N h b
N b b
X a 3 1
X b 3 2
P a b 6
",
    },
    Accepted {
        title: "star 2, 1, 0",
        sheet: "network 1\nN hub\nN a\nN b\nN c\nL hub a 2\nL hub b 1\nL hub c 0\n",
        report: "\
plan 2 1
L hub a 2 1
L hub b 1 1
L hub c 0 0
N hub a
N a a
N b b
N c c
X a 1 2
X b 1 1
X c 0 1
P a b 2
",
    },
    Accepted {
        title: "two joints, where rooting at the other gives other pairs",
        sheet: "network 1\nN a\nN b\nN c\nN d\nN e\nN f\n\
                L d b 1\nL a c 2\nL a d 1\nL a e 1\nL a f 1\n",
        report: "\
plan 5 4
L d b 1 1
L a c 2 2
L a d 1 1
L a e 1 1
L a f 1 1
N a -
N b b
N c c
N d -
N e e
N f f
X b 1 1
X c 2 1
X e 1 1
X f 1 1
P b c 1
P b f 1
P c e 2
P c f 1
",
    },
    Accepted {
        title: "two joints, both lists of the lower one cut",
        sheet: "network 1\nN h\nN a\nN k\nN b\nN c\nN d\nN e\n\
                L h a 3\nL h k 3\nL h b 2\nL k c 2\nL k d 2\nL k e 3\n",
        report: "\
plan 12 5
L h a 3 3
L h k 3 3
L h b 2 2
L k c 2 2
L k d 2 2
L k e 3 3
N h -
N a a
N k -
N b b
N c c
N d d
N e e
X a 3 1
X b 2 1
X c 2 1
X d 2 1
X e 3 1
P a b 2
P a d 2
P a e 2
P b d 2
P c e 4
",
    },
    Accepted {
        title: "lines mixed, names in either case",
        sheet: "network 1\nN Q\nN r\nL R q 2\nN 7x\nL 7X Q 3\nN 01234567890a\nL q 01234567890A 2\n",
        report: "\
plan 7 3
L r Q 2 2
L 7x Q 3 3
L Q 01234567890a 2 2
N Q -
N r r
N 7x 7x
N 01234567890a 01234567890a
X r 2 1
X 7x 3 1
X 01234567890a 2 1
P r 7x 3
P r 01234567890a 1
P 7x 01234567890a 3
",
    },
    Accepted {
        title: "Hill on one line, HILL on the next",
        sheet: "network 1\nN Hill\nN mill\nL HILL Mill 4\n",
        report: "\
plan 8 1
L Hill mill 4 4
N Hill Hill
N mill mill
X Hill 4 1
X mill 4 1
P Hill mill 8
",
    },
    Accepted {
        title: "star 5, 1, 1, each name in many spellings",
        sheet: "network 1\nN HuB\nN abcdefghijkL\nN B\nN c0P\n\
                L hub ABCDEFGHIJKL 5\nL b HUB 1\nL hUb C0p 1\n",
        report: "\
plan 4 2
L HuB abcdefghijkL 5 2
L B HuB 1 1
L HuB c0P 1 1
N HuB abcdefghijkL
N abcdefghijkL abcdefghijkL
N B B
N c0P c0P
X abcdefghijkL 2 2
X B 1 1
X c0P 1 1
P abcdefghijkL B 2
P abcdefghijkL c0P 2
",
    },
    Accepted {
        title: "path 1, 1, 1 of letters and the digits close to them",
        sheet: "network 1\nN 4p0\nN 4pP\nN 4p1\nN 4pq\nL 4P0 4Pp 1\nL 4Pp 4p1 1\nL 4P1 4pQ 1\n",
        report: "\
plan 2 1
L 4p0 4pP 1 1
L 4pP 4p1 1 1
L 4p1 4pq 1 1
N 4p0 4p0
N 4pP -
N 4p1 -
N 4pq 4pq
X 4p0 1 1
X 4pq 1 1
P 4p0 4pq 2
",
    },
    Accepted {
        title: "star 5, 1, 1 of links with reserves 2, 1, 0",
        sheet: "network 1\nN hub\nN a\nN b\nN c\nL hub a 7 2\nL hub b 2 1\nL hub c 1 0\n",
        report: "\
plan 4 2
L hub a 5 2
L hub b 1 1
L hub c 1 1
N hub a
N a a
N b b
N c c
X a 2 2
X b 1 1
X c 1 1
P a b 2
P a c 2
",
    },
    Accepted {
        title: "star 5, 1, 1 with a reserve that leaves nothing to trim",
        sheet: "network 1\nN hub\nN a\nN b\nN c\nL hub a 5 3\nL hub b 1\nL hub c 1\n",
        report: "\
plan 4 2
L hub a 2 2
L hub b 1 1
L hub c 1 1
N hub -
N a a
N b b
N c c
X a 2 1
X b 1 1
X c 1 1
P a b 2
P a c 2
",
    },
    Accepted {
        title: "star 2, 2, 2 with reserves 1, 1, 2",
        sheet: "network 1\nN hub\nN a\nN b\nN c\nL hub a 2 1\nL hub b 2 1\nL hub c 2 2\n",
        report: "\
plan 2 1
L hub a 1 1
L hub b 1 1
L hub c 0 0
N hub -
N a a
N b b
N c c
X a 1 1
X b 1 1
X c 0 1
P a b 2
",
    },
    Accepted {
        title: "path 7, 3, 5 with reserves, names in either case",
        sheet: "network 1\nN a\nN h\nN K\nN b\nL A h 9 2\nL h k 3\nL K b 1000000 999995\n",
        report: "\
plan 6 1
L a h 7 3
L h K 3 3
L K b 5 3
N a a
N h a
N K b
N b b
X a 3 2
X b 3 2
P a b 6
",
    },
    Accepted {
        title: "a reserve of 0",
        sheet: "network 1\nN a\nN b\nL a b 4 0\n",
        report: "\
plan 8 1
L a b 4 4
N a a
N b b
X a 4 1
X b 4 1
P a b 8
",
    },
    Accepted {
        title: "a reserve equal to the size",
        sheet: "network 1\nN a\nN b\nL a b 4 4\n",
        report: "\
plan 0 0
L a b 0 0
N a a
N b b
X a 0 1
X b 0 1
",
    },
    Accepted {
        title: "size 0 and a reserve of 0",
        sheet: "network 1\nN a\nN b\nL a b 0 0\n",
        report: "\
plan 0 0
L a b 0 0
N a a
N b b
X a 0 1
X b 0 1
",
    },
    Accepted {
        title: "size and reserve 1,000,000",
        sheet: "network 1\nN a\nN b\nL a b 1000000 1000000\n",
        report: "\
plan 0 0
L a b 0 0
N a a
N b b
X a 0 1
X b 0 1
",
    },
    Accepted {
        title: "size 10 and a reserve of 9",
        sheet: "network 1\nN a\nN b\nL a b 10 9\n",
        report: "\
plan 2 1
L a b 1 1
N a a
N b b
X a 1 1
X b 1 1
P a b 2
",
    },
    Accepted {
        title: "star 1, 1, 1 with its hub marked",
        sheet: "network 1\nT hub\nN a\nN b\nN c\nL hub a 1\nL hub b 1\nL hub c 1\n",
        report: "\
plan 6 3
L hub a 1 1
L hub b 1 1
L hub c 1 1
N hub hub
N a a
N b b
N c c
X hub 3 1
X a 1 1
X b 1 1
X c 1 1
P hub a 2
P hub b 2
P hub c 2
",
    },
    Accepted {
        title: "star 2, 0, 0 with its hub marked",
        sheet: "network 1\nT hub\nN a\nN b\nN c\nL hub a 2\nL hub b 0\nL hub c 0\n",
        report: "\
plan 4 1
L hub a 2 2
L hub b 0 0
L hub c 0 0
N hub hub
N a a
N b b
N c c
X hub 2 1
X a 2 1
X b 0 1
X c 0 1
P hub a 4
",
    },
    Accepted {
        title: "star 5, 1, 1 with an end marked",
        sheet: "network 1\nN hub\nT a\nN b\nN c\nL hub a 5\nL hub b 1\nL hub c 1\n",
        report: "\
plan 4 2
L hub a 5 2
L hub b 1 1
L hub c 1 1
N hub a
N a a
N b b
N c c
X a 2 2
X b 1 1
X c 1 1
P a b 2
P a c 2
",
    },
    Accepted {
        title: "two sites, both marked",
        sheet: "network 1\nT a\nT b\nL b a 4\n",
        report: "\
plan 8 1
L b a 4 4
N a a
N b b
X a 4 1
X b 4 1
P a b 8
",
    },
    Accepted {
        title: "path 7, 3, 5 with one inner site marked",
        sheet: "network 1\nN a\nT h\nN k\nN b\nL a h 7\nL h k 3\nL k b 5\n",
        report: "\
plan 20 2
L a h 7 7
L h k 3 3
L k b 5 3
N a a
N h h
N k b
N b b
X a 7 1
X h 10 1
X b 3 2
P a h 14
P h b 6
",
    },
    Accepted {
        title: "path 7, 3, 5 with both inner sites marked",
        sheet: "network 1\nN a\nT h\nT k\nN b\nL a h 7\nL h k 3\nL k b 5\n",
        report: "\
plan 30 3
L a h 7 7
L h k 3 3
L k b 5 5
N a a
N h h
N k k
N b b
X a 7 1
X h 10 1
X k 8 1
X b 5 1
P a h 14
P h k 6
P k b 10
",
    },
    Accepted {
        title: "a link trimmed beyond a marked site, not at it",
        sheet: "network 1\nN a\nT m\nN h\nN b\nN c\nL m a 5\nL m h 9\nL h b 1\nL h c 2\n",
        report: "\
plan 16 3
L m a 5 5
L m h 9 3
L h b 1 1
L h c 2 2
N a a
N m m
N h m
N b b
N c c
X a 5 1
X m 8 2
X b 1 1
X c 2 1
P a m 10
P m b 2
P m c 4
",
    },
    Accepted {
        title: "all sites of two joints marked",
        sheet: "network 1\nT h\nT k\nT a\nT b\nT c\nT d\n\
                L h k 10\nL h a 3\nL h b 3\nL k c 1\nL k d 1\n",
        report: "\
plan 36 5
L h k 10 10
L h a 3 3
L h b 3 3
L k c 1 1
L k d 1 1
N h h
N k k
N a a
N b b
N c c
N d d
X h 16 1
X k 12 1
X a 3 1
X b 3 1
X c 1 1
X d 1 1
P h k 20
P h a 6
P h b 6
P k c 2
P k d 2
",
    },
    // The part of a and d is walked from a: from d, which is next to the joint of lowest number and is
    // the higher of the two, it would have other pairs.
    Accepted {
        title: "two parts that meet at a marked site, each with its own root",
        sheet: "network 1\nN g\nN a\nT b\nN c\nN d\nN e\nN f\nN h\nN i\nL d b 1\nL a c 2\nL a d 1\n\
                L a e 1\nL a f 1\nL g b 1\nL g h 1\nL g i 1\n",
        report: "\
plan 8 7
L d b 1 1
L a c 2 2
L a d 1 1
L a e 1 1
L a f 1 1
L g b 1 1
L g h 1 1
L g i 1 1
N g -
N a -
N b b
N c c
N d -
N e e
N f f
N h h
N i i
X b 2 1
X c 2 1
X e 1 1
X f 1 1
X h 1 1
X i 1 1
P b c 1
P b f 1
P b h 1
P b i 1
P c e 2
P c f 1
P h i 1
",
    },
    Accepted {
        title: "two parts with a joint each, and a link between their marked ends",
        sheet: "network 1\nN h\nN k\nT m\nT n\nN a\nN b\nN c\nN d\nL h a 4\nL h b 3\nL h m 9\nL m n 5\n\
                L n k 2\nL k c 2\nL k d 2\n",
        report: "\
plan 30 6
L h a 4 4
L h b 3 3
L h m 9 7
L m n 5 5
L n k 2 2
L k c 2 2
L k d 2 2
N h m
N k -
N m m
N n n
N a a
N b b
N c c
N d d
X m 12 2
X n 7 1
X a 4 1
X b 3 1
X c 2 1
X d 2 1
P m n 10
P m a 8
P m b 6
P n c 2
P n d 2
P c d 2
",
    },
    Accepted {
        title: "a marked site in many spellings, a link with a reserve",
        sheet: "network 1\nT Hill\nN mill\nN Dell\nL HILL mill 4 1\nL hill DELL 2\n",
        report: "\
plan 10 2
L Hill mill 3 3
L Hill Dell 2 2
N Hill Hill
N mill mill
N Dell Dell
X Hill 5 1
X mill 3 1
X Dell 2 1
P Hill mill 6
P Hill Dell 4
",
    },
    Accepted {
        title: "sites named N, T and L, the second marked",
        sheet: "network 1\nN N\nT T\nL N T 1\nN L\nL T L 2\n",
        report: "\
plan 6 2
L N T 1 1
L T L 2 2
N N N
N T T
N L L
X N 1 1
X T 3 1
X L 2 1
P N T 2
P T L 4
",
    },
    Accepted {
        title: "star 5, 1, 1 of edition 2",
        sheet: "network 2\nN hub\nN a\nN b\nN c\nL hub a 5\nL hub b 1\nL hub c 1\n",
        report: "\
plan 4 2
L hub a 5 2
L hub b 1 1
L hub c 1 1
N hub a
N a a
N b b
N c c
X a 2 2
X b 1 1
X c 1 1
P a b 2
P a c 2
",
    },
    Accepted {
        title: "a marked site in many spellings, a link with a reserve, of edition 2",
        sheet: "network 2\nT Hill\nN mill\nN Dell\nL HILL mill 4 1\nL hill DELL 2\n",
        report: "\
plan 10 2
L Hill mill 3 3
L Hill Dell 2 2
N Hill Hill
N mill mill
N Dell Dell
X Hill 5 1
X mill 3 1
X Dell 2 1
P Hill mill 6
P Hill Dell 4
",
    },
    Accepted {
        title: "names of digits but for a letter",
        sheet: "network 1\nN 4a\nN a4\nN 00000000000Z\nL 4A a4 4\nL A4 00000000000z 40\n",
        report: "\
plan 8 1
L 4a a4 4 4
L a4 00000000000Z 40 4
N 4a 4a
N a4 00000000000Z
N 00000000000Z 00000000000Z
X 4a 4 1
X 00000000000Z 4 2
P 4a 00000000000Z 8
",
    },
    Accepted {
        title: "a marked site of digits but for a letter inside, of edition 2",
        sheet: "network 2\nN 0x1\nT 1e3\nN 123456P89012\nL 0X1 1E3 3\nL 1e3 123456p89012 10 3\n",
        report: "\
plan 20 2
L 0x1 1e3 3 3
L 1e3 123456P89012 7 7
N 0x1 0x1
N 1e3 1e3
N 123456P89012 123456P89012
X 0x1 3 1
X 1e3 10 1
X 123456P89012 7 1
P 0x1 1e3 6
P 1e3 123456P89012 14
",
    },
];

/// A sheet of an edition with all sites that it may have, `s1`, `s2` and so on, each but the first linked to
/// the first.
#[must_use]
pub fn star(edition: Edition) -> Vec<u8> {
    let sites = edition.sites();
    let site_lines = (1..=sites).map(|site| format!("N s{site}\n"));
    let link_lines = (2..=sites).map(|site| format!("L s1 s{site} {site}\n"));
    let lines: String = site_lines.chain(link_lines).collect();
    [edition.heading(), b"\n", &tabbed(&lines)].concat()
}

/// A sheet with the largest sums of an edition: all sites that it may have, the first of them marked and linked
/// to all others by links of size 1,000,000.
#[must_use]
pub fn largest_sums(edition: Edition) -> Vec<u8> {
    let sites = (2..=edition.sites()).map(|site| format!("N s{site}\nL s1 s{site} 1000000\n"));
    let lines = format!("\nT s1\n{}", sites.collect::<String>());
    [edition.heading(), &tabbed(&lines)].concat()
}

/// What its report has behind its heading's word: the start, the line of its marked site's set, and the end.
#[must_use]
pub const fn largest_sums_printed(edition: Edition) -> [&'static [u8]; 3] {
    match edition {
        Edition::One => [
            b"\t510000000\t255\nL\ts1\ts2\t1000000\t1000000\n",
            b"\nX\ts1\t255000000\t1\n",
            b"\nP\ts1\ts256\t2000000\n",
        ],
        Edition::Two => [
            b"\t766000000\t383\nL\ts1\ts2\t1000000\t1000000\n",
            b"\nX\ts1\t383000000\t1\n",
            b"\nP\ts1\ts384\t2000000\n",
        ],
    }
}

/// Lines behind a sheet with all sites that its edition may have. Title, line and number.
const LAST_SITES: &[(&str, &str, u8)] = &[
    ("a site too many", "N new\n", 4),
    ("a site too many with a name already given", "N s1\n", 4),
    (
        "a site too many with a name already given in the other case",
        "N S1\n",
        4,
    ),
    ("a site too many with a bad name", "N a-b\n", 11),
    (
        "a site too many with a third field and a bad name",
        "N a-b c\n",
        10,
    ),
    ("a site too many, marked", "T new\n", 4),
    (
        "a site too many, marked, with a name already given in the other case",
        "T S1\n",
        4,
    ),
    ("a site too many, marked, with a bad name", "T a-b\n", 11),
    ("a site too many called 40", "N 40\n", 17),
    ("a site too many called 007, marked", "T 007\n", 17),
    ("a site too many without byte 10", "N new", 2),
];

/// Empty lines behind a first line. Title, first line, length of the sheet, number and line.
const LENGTHS: &[(&str, &str, usize, u8, u32)] = &[
    ("16,384 bytes", "", 16_384, 2, 1),
    ("16,385 bytes", "", 16_385, 1, 0),
    ("16,384 bytes of edition 1", "network 1", 16_384, 2, 2),
    ("16,385 bytes of edition 1", "network 1", 16_385, 1, 0),
    ("16,385 bytes of edition 2", "network 2", 16_385, 2, 2),
    ("24,576 bytes of edition 2", "network 2", 24_576, 2, 2),
    ("24,577 bytes of edition 2", "network 2", 24_577, 1, 0),
    ("24,576 bytes of edition 1", "network 1", 24_576, 1, 0),
    ("16,384 bytes of an edition 3", "network 3", 16_384, 2, 1),
    ("16,385 bytes of an edition 3", "network 3", 16_385, 1, 0),
];

/// The refused sheets: those of the scope document, and the finer points of its table.
#[must_use]
pub fn refused() -> Vec<Refused> {
    let mut list = vec![Refused {
        title: "no byte",
        sheet: Vec::new(),
        number: 1,
        line: 0,
    }];
    for &(title, first_line, length, number, line) in LENGTHS {
        let mut sheet = tabbed(first_line);
        sheet.resize(length, b'\n');
        list.push(Refused {
            title,
            sheet,
            number,
            line,
        });
    }
    for edition in Edition::ALL {
        list.extend(LAST_SITES.iter().map(|&(title, line, number)| Refused {
            title,
            sheet: [star(edition), tabbed(line)].concat(),
            number,
            line: 2 * edition.sites() as u32 + 1,
        }));
    }
    let lists = [REFUSED, FORMS, CASES, RESERVES, MARKS, EDITIONS, BARE];
    for &(title, sheet, number, line) in lists.into_iter().flatten() {
        list.push(Refused {
            title,
            sheet: tabbed(sheet),
            number,
            line,
        });
    }
    for (title, before, behind, number) in [
        ("a size of 16,000 digits", "", "\n", 3),
        ("a size of 16,000 digits without byte 10", "", "", 2),
        ("a size of 16,000 digits and a letter", "", "x\n", 12),
        ("a size of 16,000 digits and a reserve", "", " 1\n", 3),
        ("a size of 16,000 digits and a bad reserve", "", " 01\n", 12),
        ("a size of 16,000 digits and two fields", "", " 1 1\n", 10),
        ("a reserve of 16,000 digits", "1 ", "\n", 3),
        ("a reserve of 16,000 digits without byte 10", "1 ", "", 2),
        ("a reserve of 16,000 digits and a letter", "1 ", "x\n", 12),
        ("a reserve of 16,000 digits, a bad size", "01 ", "\n", 12),
        ("a reserve of 16,000 digits and a field", "1 ", " 1\n", 10),
    ] {
        list.push(Refused {
            title,
            sheet: long_number(before, 16_000, behind),
            number,
            line: 4,
        });
    }
    list
}

/// A sheet with a long number in its link line.
fn long_number(before: &str, digits: usize, behind: &str) -> Vec<u8> {
    let mut sheet = tabbed("network 1\nN a\nN b\nL a b ");
    sheet.extend(tabbed(before));
    sheet.extend(std::iter::repeat_n(b'9', digits));
    sheet.extend(tabbed(behind));
    sheet
}

/// Title, sheet, number and line.
const REFUSED: &[(&str, &str, u8, u32)] = &[
    ("heading alone", "network 1\n", 8, 0),
    ("one site", "network 1\nN a\n", 8, 0),
    ("two sites, no link", "network 1\nN a\nN b\n", 8, 0),
    (
        "a site not joined",
        "network 1\nN a\nN b\nL a b 1\nN c\n",
        8,
        0,
    ),
    (
        "two parts",
        "network 1\nN a\nN b\nN c\nN d\nL a b 1\nL d c 1\n",
        8,
        0,
    ),
    ("heading without byte 10", "network 1", 2, 1),
    ("heading with an empty third field", "network 1 \n", 2, 1),
    ("heading with a third field", "network 1 1\n", 2, 1),
    ("another edition", "network 3\n", 2, 1),
    ("edition with a leading zero", "network 01\n", 2, 1),
    ("edition 10", "network 10\n", 2, 1),
    ("heading in capitals", "NETWORK 1\n", 2, 1),
    ("site in the first line", "N a\nN b\nL a b 1\n", 2, 1),
    ("link in the first line", "L a b 1\n", 2, 1),
    ("empty first line", "\nnetwork 1\n", 2, 1),
    ("heading with byte 13", "network 1\r\nN a\n", 2, 1),
    (
        "second heading",
        "network 1\nnetwork 1\nN a\nN b\nL a b 1\n",
        2,
        2,
    ),
    ("empty line", "network 1\nN a\n\nN b\nL a b 1\n", 2, 3),
    ("empty last line", "network 1\nN a\nN b\nL a b 1\n\n", 2, 5),
    (
        "last line without byte 10",
        "network 1\nN a\nN b\nL a b 1",
        2,
        4,
    ),
    (
        "site without byte 10",
        "network 1\nN a\nN b\nL a b 1\nN c",
        2,
        5,
    ),
    ("letter alone", "network 1\nN\n", 10, 2),
    ("letter alone at the end", "network 1\nN", 2, 2),
    ("small letter", "network 1\nn a\n", 2, 2),
    ("unknown letter", "network 1\nP a\n", 2, 2),
    ("empty name", "network 1\nN \n", 11, 2),
    ("name of 13 bytes", "network 1\nN abcdefghijklm\n", 11, 2),
    ("name with a sign", "network 1\nN a_b\n", 11, 2),
    ("name with byte 13", "network 1\nN a\r\n", 11, 2),
    ("site with a third field", "network 1\nN a b\n", 10, 2),
    ("site with an empty third field", "network 1\nN a \n", 10, 2),
    (
        "link with three fields",
        "network 1\nN a\nN b\nL a b\n",
        10,
        4,
    ),
    (
        "link with six fields",
        "network 1\nN a\nN b\nL a b 1 1 1\n",
        10,
        4,
    ),
    (
        "link with an empty name",
        "network 1\nN a\nN b\nL  b 1\n",
        11,
        4,
    ),
    (
        "link with two tabs",
        "network 1\nN a\nN b\nL a  b 1\n",
        11,
        4,
    ),
    (
        "link with a name of 13 bytes",
        "network 1\nN a\nN b\nL a abcdefghijklm 1\n",
        11,
        4,
    ),
    ("empty size", "network 1\nN a\nN b\nL a b \n", 12, 4),
    ("size 00", "network 1\nN a\nN b\nL a b 00\n", 12, 4),
    ("size 07", "network 1\nN a\nN b\nL a b 07\n", 12, 4),
    (
        "size 01000001",
        "network 1\nN a\nN b\nL a b 01000001\n",
        12,
        4,
    ),
    (
        "size 000000000000",
        "network 1\nN a\nN b\nL a b 000000000000\n",
        12,
        4,
    ),
    ("size +1", "network 1\nN a\nN b\nL a b +1\n", 12, 4),
    ("size -1", "network 1\nN a\nN b\nL a b -1\n", 12, 4),
    ("size 1.0", "network 1\nN a\nN b\nL a b 1.0\n", 12, 4),
    ("size 1e3", "network 1\nN a\nN b\nL a b 1e3\n", 12, 4),
    (
        "size 1,000,001",
        "network 1\nN a\nN b\nL a b 1000001\n",
        3,
        4,
    ),
    (
        "size 9,999,999",
        "network 1\nN a\nN b\nL a b 9999999\n",
        3,
        4,
    ),
    (
        "size 10,000,000",
        "network 1\nN a\nN b\nL a b 10000000\n",
        3,
        4,
    ),
    ("size 2^32", "network 1\nN a\nN b\nL a b 4294967296\n", 3, 4),
    (
        "size 2^64",
        "network 1\nN a\nN b\nL a b 18446744073709551616\n",
        3,
        4,
    ),
    (
        "size too large, then byte 13",
        "network 1\nN a\nN b\nL a b 10000000\r\n",
        12,
        4,
    ),
    (
        "size too large, a name unknown",
        "network 1\nN a\nL a q 1000001\n",
        3,
        3,
    ),
    (
        "size too large, one site",
        "network 1\nN a\nL a a 1000001\n",
        3,
        3,
    ),
    ("name given twice", "network 1\nN a\nN a\n", 5, 3),
    ("first name unknown", "network 1\nN b\nL a b 1\n", 6, 3),
    ("second name unknown", "network 1\nN a\nL a b 1\n", 6, 3),
    ("name given below", "network 1\nN a\nL a b 1\nN b\n", 6, 3),
    ("one unknown site", "network 1\nN a\nL q q 1\n", 6, 3),
    (
        "one site linked to itself",
        "network 1\nN a\nL a a 1\n",
        7,
        3,
    ),
    (
        "link given twice",
        "network 1\nN a\nN b\nL a b 1\nL b a 1\n",
        7,
        5,
    ),
    (
        "ring",
        "network 1\nN a\nN b\nN c\nL a b 1\nL b c 1\nL c a 1\n",
        7,
        7,
    ),
    (
        "ring over links of size 0",
        "network 1\nN a\nN b\nL a b 0\nL a b 0\n",
        7,
        5,
    ),
    ("lowest line decides", "network 1\nN a\nN a\nX\n", 5, 3),
    (
        "lowest line decides, before 8",
        "network 1\nN a\nL a a 0\n",
        7,
        3,
    ),
    (
        "a tab before the size",
        "network 1\nN a\nN b\nL a b  1\n",
        12,
        4,
    ),
];

/// The faults of form and their order within a line: 2 (line ending, heading, letter), 10 (number
/// of fields), 11 (names), 12 (numbers), then the other causes. Title, sheet, number and line.
const FORMS: &[(&str, &str, u8, u32)] = &[
    ("site with a space for the tab", "network 1\nN~hub\n", 2, 2),
    (
        "site with a space for the tab, then a tab",
        "network 1\nN~hub a\n",
        2,
        2,
    ),
    (
        "link with spaces for the tabs",
        "network 1\nN a\nN b\nL~a~b~1\n",
        2,
        4,
    ),
    (
        "link with a space for its first tab",
        "network 1\nN a\nN b\nL~a b 1\n",
        2,
        4,
    ),
    ("heading with a space for the tab", "network~1\nN a\n", 2, 1),
    ("heading with a space behind", "network 1~\nN a\n", 2, 1),
    ("heading without its second field", "network\nN a\n", 2, 1),
    (
        "heading with a byte order mark",
        "\u{feff}network 1\nN a\n",
        2,
        1,
    ),
    ("tab before the letter", "network 1\n N a\n", 2, 2),
    ("space before the letter", "network 1\n~N a\n", 2, 2),
    ("two letters", "network 1\nNL a\n", 2, 2),
    ("small l", "network 1\nN a\nN b\nl a b 1\n", 2, 4),
    ("a line of tabs", "network 1\n   \n", 2, 2),
    ("byte 13 alone", "network 1\n\r\n", 2, 2),
    ("letter, then byte 13", "network 1\nN\r\n", 2, 2),
    ("second heading, of one field", "network 1\nnetwork\n", 2, 2),
    (
        "second heading, of three fields",
        "network 1\nnetwork 1 1\n",
        2,
        2,
    ),
    ("unknown letter U", "network 1\nU a\n", 2, 2),
    ("unknown letter alone", "network 1\nP\n", 2, 2),
    ("unknown letter and a bad name", "network 1\nP a-b\n", 2, 2),
    (
        "unknown letter and too many fields",
        "network 1\nN a\nN b\nM a b 07 1 1\n",
        2,
        4,
    ),
    (
        "unknown letter and a bad number",
        "network 1\nN a\nN b\nM a b 07\n",
        2,
        4,
    ),
    (
        "unknown letter and a size too large",
        "network 1\nN a\nN b\nl a b 1000001\n",
        2,
        4,
    ),
    ("too many fields without byte 10", "network 1\nN a b", 2, 2),
    (
        "too few fields without byte 10",
        "network 1\nN a\nN b\nL a b",
        2,
        4,
    ),
    ("bad name without byte 10", "network 1\nN a-b", 2, 2),
    ("empty name without byte 10", "network 1\nN ", 2, 2),
    (
        "bad number without byte 10",
        "network 1\nN a\nN b\nL a b 07",
        2,
        4,
    ),
    (
        "empty size without byte 10",
        "network 1\nN a\nN b\nL a b ",
        2,
        4,
    ),
    (
        "size too large without byte 10",
        "network 1\nN a\nN b\nL a b 1000001",
        2,
        4,
    ),
    (
        "name given twice, without byte 10",
        "network 1\nN a\nN a",
        2,
        3,
    ),
    (
        "unknown name without byte 10",
        "network 1\nN a\nL a q 1",
        2,
        3,
    ),
    (
        "ring without byte 10",
        "network 1\nN a\nN b\nL a b 1\nL b a 1",
        2,
        5,
    ),
    ("link letter alone", "network 1\nN a\nN b\nL\n", 10, 4),
    ("link with two fields", "network 1\nN a\nN b\nL a\n", 10, 4),
    (
        "link with an empty second field alone",
        "network 1\nN a\nN b\nL \n",
        10,
        4,
    ),
    (
        "link with a space for its last tab",
        "network 1\nN a\nN b\nL a b~1\n",
        10,
        4,
    ),
    (
        "link with a space for its second tab",
        "network 1\nN a\nN b\nL a~b 1\n",
        10,
        4,
    ),
    (
        "link with an empty sixth field",
        "network 1\nN a\nN b\nL a b 1 1 \n",
        10,
        4,
    ),
    (
        "site with the fields of a link",
        "network 1\nN a\nN b\nN a b 1\n",
        10,
        4,
    ),
    (
        "link with the fields of a site",
        "network 1\nN a\nL a\n",
        10,
        3,
    ),
    ("three fields and a bad name", "network 1\nN a-b c\n", 10, 2),
    ("three fields, two of them empty", "network 1\nN  \n", 10, 2),
    (
        "three fields, a link's names bad",
        "network 1\nN a\nN b\nL a-b c-d\n",
        10,
        4,
    ),
    (
        "six fields and a bad name",
        "network 1\nN a\nN b\nL a-b b 1 1 1\n",
        10,
        4,
    ),
    (
        "six fields and an empty name",
        "network 1\nN a\nN b\nL  b 1 1 1\n",
        10,
        4,
    ),
    (
        "three fields, a leading zero",
        "network 1\nN a\nN b\nL a 07\n",
        10,
        4,
    ),
    (
        "six fields, a leading zero",
        "network 1\nN a\nN b\nL a b 07 1 1\n",
        10,
        4,
    ),
    (
        "six fields, all wrong",
        "network 1\nN a\nN b\nL - - 07 07 07\n",
        10,
        4,
    ),
    (
        "six fields, a size too large",
        "network 1\nN a\nN b\nL a b 1000001 1 1\n",
        10,
        4,
    ),
    (
        "six fields, a name unknown",
        "network 1\nN a\nN b\nL a q 1 1 1\n",
        10,
        4,
    ),
    (
        "six fields, one site",
        "network 1\nN a\nN b\nL a a 1 1 1\n",
        10,
        4,
    ),
    (
        "three fields, a name given twice",
        "network 1\nN a\nN a a\n",
        10,
        3,
    ),
    ("name with a space", "network 1\nN a~b\n", 11, 2),
    ("name with a space behind", "network 1\nN hub~\n", 11, 2),
    ("name with a zero byte", "network 1\nN a\0\n", 11, 2),
    (
        "name with a letter that is not ASCII",
        "network 1\nN \u{e9}\n",
        11,
        2,
    ),
    ("first name bad", "network 1\nN a\nN b\nL a-b b 1\n", 11, 4),
    ("second name bad", "network 1\nN a\nN b\nL a b-c 1\n", 11, 4),
    (
        "first name of 13 bytes",
        "network 1\nN a\nN b\nL abcdefghijklm b 1\n",
        11,
        4,
    ),
    ("second name empty", "network 1\nN a\nN b\nL a  1\n", 11, 4),
    (
        "second name with byte 13",
        "network 1\nN a\nN b\nL a b\r 1\n",
        11,
        4,
    ),
    (
        "first name bad, a leading zero",
        "network 1\nN a\nN b\nL a-b b 07\n",
        11,
        4,
    ),
    (
        "second name bad, a leading zero",
        "network 1\nN a\nN b\nL a b-c 07\n",
        11,
        4,
    ),
    (
        "second name bad, an empty size",
        "network 1\nN a\nN b\nL a b-c \n",
        11,
        4,
    ),
    (
        "four fields, three of them empty",
        "network 1\nN a\nN b\nL   \n",
        11,
        4,
    ),
    (
        "second name bad, a size too large",
        "network 1\nN a\nN b\nL a b-c 1000001\n",
        11,
        4,
    ),
    (
        "first name unknown, second name bad",
        "network 1\nN a\nN b\nL q b-c 1\n",
        11,
        4,
    ),
    (
        "first name bad, second name unknown",
        "network 1\nN a\nN b\nL a-b q 1\n",
        11,
        4,
    ),
    (
        "size with a space before",
        "network 1\nN a\nN b\nL a b ~1\n",
        12,
        4,
    ),
    (
        "size with a space behind",
        "network 1\nN a\nN b\nL a b 1~\n",
        12,
        4,
    ),
    (
        "size with byte 13",
        "network 1\nN a\nN b\nL a b 1\r\n",
        12,
        4,
    ),
    ("size in words", "network 1\nN a\nN b\nL a b two\n", 12, 4),
    (
        "size with a comma",
        "network 1\nN a\nN b\nL a b 1,000\n",
        12,
        4,
    ),
    (
        "size of eight digits and a letter",
        "network 1\nN a\nN b\nL a b 12345678x\n",
        12,
        4,
    ),
    (
        "leading zero, first name unknown",
        "network 1\nN a\nN b\nL q b 07\n",
        12,
        4,
    ),
    (
        "leading zero, second name unknown",
        "network 1\nN a\nN b\nL a q 07\n",
        12,
        4,
    ),
    (
        "leading zero, one site",
        "network 1\nN a\nN b\nL a a 07\n",
        12,
        4,
    ),
    (
        "empty size, already joined",
        "network 1\nN a\nN b\nL a b 1\nL b a \n",
        12,
        5,
    ),
    (
        "too large but for a sign",
        "network 1\nN a\nN b\nL a b -1000001\n",
        12,
        4,
    ),
    (
        "lowest line decides: 10 before 2",
        "network 1\nN\nP\n",
        10,
        2,
    ),
    (
        "lowest line decides: 11 before 10",
        "network 1\nN a-b\nN\n",
        11,
        2,
    ),
    (
        "lowest line decides: 12 before 11",
        "network 1\nN a\nN b\nL a b 07\nN a-b\n",
        12,
        4,
    ),
    (
        "lowest line decides: 5 before 12",
        "network 1\nN a\nN a\nL a a 07\n",
        5,
        3,
    ),
    (
        "lowest line decides: 12 before no byte 10",
        "network 1\nN a\nN b\nL a b 07\nN c",
        12,
        4,
    ),
    ("heading decides", "network 3\nN\nN a-b\n", 2, 1),
];

/// Names in either case: refusals 5, 6 and 7 read a-z as A-Z. Title, sheet, number and line.
const CASES: &[(&str, &str, u8, u32)] = &[
    (
        "name given again in capitals",
        "network 1\nN Hill\nN HILL\n",
        5,
        3,
    ),
    (
        "name given again in small letters",
        "network 1\nN B\nN A\nN b\n",
        5,
        4,
    ),
    ("a and A", "network 1\nN a\nN A\n", 5, 3),
    ("Z and z", "network 1\nN Z\nN z\n", 5, 3),
    (
        "name of 12 letters, the last in the other case",
        "network 1\nN abcdefghijkl\nN abcdefghijkL\n",
        5,
        3,
    ),
    (
        "name of 9 bytes, the first in the other case",
        "network 1\nN p2345678p\nN P2345678p\n",
        5,
        3,
    ),
    (
        "name in either case, before 8",
        "network 1\nN a\nN b\nL A B 1\nN c\n",
        8,
        0,
    ),
    (
        "first name unknown in either case",
        "network 1\nN b\nL A B 1\n",
        6,
        3,
    ),
    (
        "second name unknown in either case",
        "network 1\nN b\nL B A 1\n",
        6,
        3,
    ),
    (
        "name given below in the other case",
        "network 1\nN a\nL A B 1\nN b\n",
        6,
        3,
    ),
    (
        "one unknown site in two spellings",
        "network 1\nN a\nL q Q 1\n",
        6,
        3,
    ),
    (
        "a digit for the letter close to it",
        "network 1\nN xP\nN b\nL x0 b 1\n",
        6,
        4,
    ),
    (
        "a letter for the digit close to it",
        "network 1\nN 0x\nN b\nL B px 1\n",
        6,
        4,
    ),
    (
        "the start of a name in the other case",
        "network 1\nN Hill\nN b\nL HIL b 1\n",
        6,
        4,
    ),
    (
        "more than a name in the other case",
        "network 1\nN Hill\nN b\nL b HILLS 1\n",
        6,
        4,
    ),
    (
        "one site in two spellings",
        "network 1\nN Hill\nN b\nL hill HILL 1\n",
        7,
        4,
    ),
    (
        "one site alone in two spellings",
        "network 1\nN a\nL a A 0\n",
        7,
        3,
    ),
    (
        "link given twice in other spellings",
        "network 1\nN a\nN B\nL a B 1\nL b A 1\n",
        7,
        5,
    ),
    (
        "ring in many spellings",
        "network 1\nN a\nN b\nN c\nL A b 1\nL B c 1\nL C a 1\n",
        7,
        7,
    ),
    (
        "size too large, one site in two spellings",
        "network 1\nN a\nL a A 1000001\n",
        3,
        3,
    ),
    (
        "leading zero, one site in two spellings",
        "network 1\nN a\nL a A 01\n",
        12,
        3,
    ),
    (
        "name given again in capitals, without byte 10",
        "network 1\nN a\nN A",
        2,
        3,
    ),
    (
        "lowest line decides: 5 in either case",
        "network 1\nN a\nN A\nP\n",
        5,
        3,
    ),
    (
        "bad names that differ as a and A do",
        "network 1\nN [\nN {\n",
        11,
        2,
    ),
    (
        "bad names below A and a",
        "network 1\nN a\nN @\nN `\n",
        11,
        3,
    ),
    (
        "link with a bad name above z",
        "network 1\nN a\nN z\nL a { 1\n",
        11,
        4,
    ),
    (
        "link with a bad name above Z",
        "network 1\nN a\nN z\nL [ z 1\n",
        11,
        4,
    ),
    (
        "name with a digit less 32",
        "network 1\nN a0\nN A\u{10}\n",
        11,
        3,
    ),
];

/// Reserves: the number of fields, both numbers for 12, then both for 3, then 13, then 6 and 7.
/// Title, sheet, number and line.
const RESERVES: &[(&str, &str, u8, u32)] = &[
    (
        "reserve without byte 10",
        "network 1\nN a\nN b\nL a b 5 1",
        2,
        4,
    ),
    (
        "empty reserve without byte 10",
        "network 1\nN a\nN b\nL a b 5 ",
        2,
        4,
    ),
    (
        "reserve above the size without byte 10",
        "network 1\nN a\nN b\nL a b 1 2",
        2,
        4,
    ),
    (
        "reserve too large without byte 10",
        "network 1\nN a\nN b\nL a b 1 1000001",
        2,
        4,
    ),
    (
        "six fields without byte 10",
        "network 1\nN a\nN b\nL a b 5 1 1",
        2,
        4,
    ),
    (
        "reserve behind an unknown letter",
        "network 1\nN a\nN b\nM a b 1 2\n",
        2,
        4,
    ),
    (
        "six fields, the reserve above the size",
        "network 1\nN a\nN b\nL a b 1 2 0\n",
        10,
        4,
    ),
    (
        "six fields, the reserve empty",
        "network 1\nN a\nN b\nL a b 1  0\n",
        10,
        4,
    ),
    (
        "six fields, the reserve too large",
        "network 1\nN a\nN b\nL a b 1 1000001 0\n",
        10,
        4,
    ),
    (
        "six fields, all numbers empty",
        "network 1\nN a\nN b\nL a b   \n",
        10,
        4,
    ),
    (
        "a tab too many behind a reserve",
        "network 1\nN a\nN b\nL a b 5 1 \n",
        10,
        4,
    ),
    (
        "seven fields",
        "network 1\nN a\nN b\nL a b 5 1 1 1\n",
        10,
        4,
    ),
    (
        "three fields with the tab of a reserve",
        "network 1\nN a\nN b\nL a \n",
        10,
        4,
    ),
    (
        "site with the fields of a link with a reserve",
        "network 1\nN a\nN b\nN a b 5 1\n",
        10,
        4,
    ),
    (
        "first name bad, an empty reserve",
        "network 1\nN a\nN b\nL a-b b 5 \n",
        11,
        4,
    ),
    (
        "second name bad, the reserve above the size",
        "network 1\nN a\nN b\nL a b-c 1 2\n",
        11,
        4,
    ),
    (
        "second name empty, a reserve",
        "network 1\nN a\nN b\nL a  5 1\n",
        11,
        4,
    ),
    (
        "first name empty, a reserve too large",
        "network 1\nN a\nN b\nL  b 5 1000001\n",
        11,
        4,
    ),
    (
        "five fields, four of them empty",
        "network 1\nN a\nN b\nL    \n",
        11,
        4,
    ),
    ("empty reserve", "network 1\nN a\nN b\nL a b 5 \n", 12, 4),
    (
        "empty size and a reserve",
        "network 1\nN a\nN b\nL a b  0\n",
        12,
        4,
    ),
    (
        "empty size and an empty reserve",
        "network 1\nN a\nN b\nL a b  \n",
        12,
        4,
    ),
    ("reserve 00", "network 1\nN a\nN b\nL a b 5 00\n", 12, 4),
    ("reserve 02", "network 1\nN a\nN b\nL a b 5 02\n", 12, 4),
    (
        "reserve 01000001",
        "network 1\nN a\nN b\nL a b 5 01000001\n",
        12,
        4,
    ),
    ("reserve -1", "network 1\nN a\nN b\nL a b 5 -1\n", 12, 4),
    ("reserve +1", "network 1\nN a\nN b\nL a b 5 +1\n", 12, 4),
    ("reserve 1.0", "network 1\nN a\nN b\nL a b 5 1.0\n", 12, 4),
    (
        "reserve in words",
        "network 1\nN a\nN b\nL a b 5 two\n",
        12,
        4,
    ),
    (
        "reserve with a space before",
        "network 1\nN a\nN b\nL a b 5 ~1\n",
        12,
        4,
    ),
    (
        "reserve with a space behind",
        "network 1\nN a\nN b\nL a b 5 1~\n",
        12,
        4,
    ),
    (
        "reserve with byte 13",
        "network 1\nN a\nN b\nL a b 5 1\r\n",
        12,
        4,
    ),
    (
        "a space for the tab before the reserve",
        "network 1\nN a\nN b\nL a b 5~1\n",
        12,
        4,
    ),
    (
        "size 05 and a reserve",
        "network 1\nN a\nN b\nL a b 05 1\n",
        12,
        4,
    ),
    (
        "leading zeros in size and reserve",
        "network 1\nN a\nN b\nL a b 05 01\n",
        12,
        4,
    ),
    (
        "size too large, an empty reserve",
        "network 1\nN a\nN b\nL a b 1000001 \n",
        12,
        4,
    ),
    (
        "size too large, reserve 01",
        "network 1\nN a\nN b\nL a b 1000001 01\n",
        12,
        4,
    ),
    (
        "size 05, the reserve too large",
        "network 1\nN a\nN b\nL a b 05 1000001\n",
        12,
        4,
    ),
    (
        "size of eight digits, reserve of eight digits and a letter",
        "network 1\nN a\nN b\nL a b 12345678 12345678x\n",
        12,
        4,
    ),
    (
        "reserve above the size but for a leading zero",
        "network 1\nN a\nN b\nL a b 1 02\n",
        12,
        4,
    ),
    (
        "reserve above the size but for the size's leading zero",
        "network 1\nN a\nN b\nL a b 01 2\n",
        12,
        4,
    ),
    (
        "reserve above an empty size",
        "network 1\nN a\nN b\nL a b  2\n",
        12,
        4,
    ),
    (
        "reserve 01, a name unknown",
        "network 1\nN a\nN b\nL a q 5 01\n",
        12,
        4,
    ),
    (
        "reserve 01, one site",
        "network 1\nN a\nN b\nL a a 5 01\n",
        12,
        4,
    ),
    (
        "reserve 1,000,001",
        "network 1\nN a\nN b\nL a b 5 1000001\n",
        3,
        4,
    ),
    (
        "reserve 1,000,001 of size 0",
        "network 1\nN a\nN b\nL a b 0 1000001\n",
        3,
        4,
    ),
    (
        "reserve 1,000,001 of size 1,000,000",
        "network 1\nN a\nN b\nL a b 1000000 1000001\n",
        3,
        4,
    ),
    (
        "reserve 9,999,999",
        "network 1\nN a\nN b\nL a b 5 9999999\n",
        3,
        4,
    ),
    (
        "reserve 10,000,000",
        "network 1\nN a\nN b\nL a b 5 10000000\n",
        3,
        4,
    ),
    (
        "reserve 2^32 + 3",
        "network 1\nN a\nN b\nL a b 5 4294967299\n",
        3,
        4,
    ),
    (
        "reserve 2^64 + 3",
        "network 1\nN a\nN b\nL a b 5 18446744073709551619\n",
        3,
        4,
    ),
    (
        "size 1,000,001, a reserve of 0",
        "network 1\nN a\nN b\nL a b 1000001 0\n",
        3,
        4,
    ),
    (
        "size 1,000,001, usable size 1,000,000",
        "network 1\nN a\nN b\nL a b 1000001 1\n",
        3,
        4,
    ),
    (
        "size and reserve 1,000,001",
        "network 1\nN a\nN b\nL a b 1000001 1000001\n",
        3,
        4,
    ),
    (
        "size 1,000,001, reserve 1,000,002",
        "network 1\nN a\nN b\nL a b 1000001 1000002\n",
        3,
        4,
    ),
    (
        "size and reserve 2^32",
        "network 1\nN a\nN b\nL a b 4294967296 4294967296\n",
        3,
        4,
    ),
    (
        "reserve too large, a name unknown",
        "network 1\nN a\nN b\nL a q 5 1000001\n",
        3,
        4,
    ),
    (
        "reserve too large, one site",
        "network 1\nN a\nN b\nL a a 5 1000001\n",
        3,
        4,
    ),
    (
        "size too large, a reserve, already joined",
        "network 1\nN a\nN b\nL a b 1\nL b a 1000001 1\n",
        3,
        5,
    ),
    (
        "reserve 2 of size 1",
        "network 1\nN a\nN b\nL a b 1 2\n",
        13,
        4,
    ),
    (
        "reserve 1 of size 0",
        "network 1\nN a\nN b\nL a b 0 1\n",
        13,
        4,
    ),
    (
        "reserve 10 of size 9",
        "network 1\nN a\nN b\nL a b 9 10\n",
        13,
        4,
    ),
    (
        "reserve 1,000,000 of size 999,999",
        "network 1\nN a\nN b\nL a b 999999 1000000\n",
        13,
        4,
    ),
    (
        "reserve 1,000,000 of size 0",
        "network 1\nN a\nN b\nL a b 0 1000000\n",
        13,
        4,
    ),
    (
        "reserve above the size, first name unknown",
        "network 1\nN a\nN b\nL q b 1 2\n",
        13,
        4,
    ),
    (
        "reserve above the size, second name unknown",
        "network 1\nN a\nN b\nL a q 1 2\n",
        13,
        4,
    ),
    (
        "reserve above the size, both names unknown",
        "network 1\nN a\nN b\nL q r 1 2\n",
        13,
        4,
    ),
    (
        "reserve above the size, one site",
        "network 1\nN a\nN b\nL a a 1 2\n",
        13,
        4,
    ),
    (
        "reserve above the size, one site in two spellings",
        "network 1\nN a\nN b\nL a A 1 2\n",
        13,
        4,
    ),
    (
        "reserve above the size, already joined",
        "network 1\nN a\nN b\nL a b 1\nL b a 1 2\n",
        13,
        5,
    ),
    (
        "reserve above the size, before 8",
        "network 1\nN a\nN b\nN c\nL a b 1 2\n",
        13,
        5,
    ),
    (
        "lowest line decides: 13 before 2",
        "network 1\nN a\nN b\nL a b 1 2\nP\n",
        13,
        4,
    ),
    (
        "lowest line decides: 5 before 13",
        "network 1\nN a\nN b\nN a\nL a b 1 2\n",
        5,
        4,
    ),
    (
        "lowest line decides: 7 before 13",
        "network 1\nN a\nN b\nL a a 2 1\nL a b 1 2\n",
        7,
        4,
    ),
    (
        "first name unknown, a reserve",
        "network 1\nN a\nN b\nL q b 2 1\n",
        6,
        4,
    ),
    (
        "second name unknown, a reserve equal to the size",
        "network 1\nN a\nN b\nL a q 2 2\n",
        6,
        4,
    ),
    (
        "one site, a reserve",
        "network 1\nN a\nN b\nL a a 2 1\n",
        7,
        4,
    ),
    (
        "link given twice, with and without a reserve",
        "network 1\nN a\nN b\nL a b 2\nL b a 2 1\n",
        7,
        5,
    ),
    (
        "ring over links all held back",
        "network 1\nN a\nN b\nL a b 2 2\nL b a 3 3\n",
        7,
        5,
    ),
    (
        "a link with a reserve, not all joined",
        "network 1\nN a\nN b\nN c\nL a b 2 1\n",
        8,
        0,
    ),
];

/// Lines of marked sites, with the faults of other site lines. Title, sheet, number and line.
const MARKS: &[(&str, &str, u8, u32)] = &[
    ("small t", "network 1\nt a\n", 2, 2),
    ("letter T twice", "network 1\nTT a\n", 2, 2),
    ("both letters of a site", "network 1\nNT a\n", 2, 2),
    (
        "both letters of a site, parted",
        "network 1\nN T a\n",
        10,
        2,
    ),
    (
        "marked site with a space for the tab",
        "network 1\nT~hub\n",
        2,
        2,
    ),
    (
        "marked site with a space behind its letter",
        "network 1\nT~ hub\n",
        2,
        2,
    ),
    ("letter T, then byte 13", "network 1\nT\r\n", 2, 2),
    ("marked site without byte 10", "network 1\nT a", 2, 2),
    ("marked site alone, as line 1", "T a\n", 2, 1),
    ("letter T alone", "network 1\nT\n", 10, 2),
    ("marked site with three fields", "network 1\nT a b\n", 10, 2),
    (
        "marked site with an empty third field",
        "network 1\nT a \n",
        10,
        2,
    ),
    (
        "marked site with the fields of a link",
        "network 1\nT a\nT b\nT a b 1\n",
        10,
        4,
    ),
    (
        "marked site with three fields and a bad name",
        "network 1\nT a-b c\n",
        10,
        2,
    ),
    ("marked site with an empty name", "network 1\nT \n", 11, 2),
    ("marked site with a bad name", "network 1\nT a-b\n", 11, 2),
    (
        "marked site with byte 13 behind",
        "network 1\nT a\r\n",
        11,
        2,
    ),
    (
        "marked site with a name of 13 bytes",
        "network 1\nT abcdefghijklm\n",
        11,
        2,
    ),
    ("name given twice, marked", "network 1\nN a\nT a\n", 5, 3),
    (
        "name given twice, marked first",
        "network 1\nT a\nN a\n",
        5,
        3,
    ),
    (
        "name given twice, marked twice, in either case",
        "network 1\nT hill\nT HILL\n",
        5,
        3,
    ),
    (
        "name of a marked site given below",
        "network 1\nN a\nL a b 1\nT b\n",
        6,
        3,
    ),
    (
        "marked site linked to itself",
        "network 1\nT a\nL a A 1\n",
        7,
        3,
    ),
    (
        "ring of marked sites",
        "network 1\nT a\nT b\nT c\nL a b 1\nL b c 1\nL c a 1\n",
        7,
        7,
    ),
    ("one marked site", "network 1\nT a\n", 8, 0),
    (
        "marked sites, not all joined",
        "network 1\nT a\nT b\nT c\nL a b 1\n",
        8,
        0,
    ),
    (
        "lowest line decides: a name taken before a bad one",
        "network 1\nT a\nT a\nT a-b\n",
        5,
        3,
    ),
];

/// Sheets of edition 2, and with first lines that look much like its heading. Title, sheet, number and line.
const EDITIONS: &[(&str, &str, u8, u32)] = &[
    ("heading of edition 2 alone", "network 2\n", 8, 0),
    ("heading of edition 2 without byte 10", "network 2", 2, 1),
    (
        "heading of edition 2 with an empty third field",
        "network 2 \nN a\nN b\nL a b 1\n",
        2,
        1,
    ),
    (
        "heading of edition 2 with a third field",
        "network 2 1\nN a\nN b\nL a b 1\n",
        2,
        1,
    ),
    (
        "heading of edition 2 in capitals",
        "Network 2\nN a\nN b\nL a b 1\n",
        2,
        1,
    ),
    (
        "edition 2 with a leading zero",
        "network 02\nN a\nN b\nL a b 1\n",
        2,
        1,
    ),
    ("edition 22", "network 22\nN a\nN b\nL a b 1\n", 2, 1),
    ("edition 3", "network 3\nN a\nN b\nL a b 1\n", 2, 1),
    ("edition 0", "network 0\nN a\nN b\nL a b 1\n", 2, 1),
    (
        "second heading, of edition 2",
        "network 1\nnetwork 2\nN a\nN b\nL a b 1\n",
        2,
        2,
    ),
    (
        "second heading, of edition 1, in edition 2",
        "network 2\nnetwork 1\nN a\nN b\nL a b 1\n",
        2,
        2,
    ),
    (
        "heading of edition 2 at the end",
        "network 2\nN a\nN b\nL a b 1\nnetwork 2\n",
        2,
        5,
    ),
    ("edition 2, one site", "network 2\nN a\n", 8, 0),
    ("edition 2, letter alone", "network 2\nN\nN a-b\n", 10, 2),
    ("edition 2, bad name", "network 2\nT a-b\nN\n", 11, 2),
    (
        "edition 2, size 07",
        "network 2\nN a\nN b\nL a b 07\n",
        12,
        4,
    ),
    (
        "edition 2, size 1,000,001",
        "network 2\nN a\nN b\nL a b 1000001\n",
        3,
        4,
    ),
    (
        "edition 2, reserve above the size",
        "network 2\nN a\nN b\nL a b 1 2\n",
        13,
        4,
    ),
    (
        "edition 2, name given twice in either case",
        "network 2\nN a\nT A\n",
        5,
        3,
    ),
    ("edition 2, unknown name", "network 2\nN a\nL a b 1\n", 6, 3),
    (
        "edition 2, link given twice",
        "network 2\nN a\nN b\nL a b 1\nL b a 1\n",
        7,
        5,
    ),
];

/// Bare numbers as names: all names of a line are looked at for 11, then all for 17, and then the numbers for 12.
/// Title, sheet, number and line.
const BARE: &[(&str, &str, u8, u32)] = &[
    ("site called 40", "network 1\nN 40\n", 17, 2),
    ("site called 0", "network 1\nN 0\n", 17, 2),
    ("site called 007", "network 1\nN 007\n", 17, 2),
    ("marked site called 9", "network 1\nT 9\n", 17, 2),
    ("name of 12 digits", "network 1\nN 123456789012\n", 17, 2),
    (
        "name of 12 zeros, marked",
        "network 1\nT 000000000000\n",
        17,
        2,
    ),
    (
        "site called 40 below a tree",
        "network 1\nN a\nN b\nL a b 1\nN 40\n",
        17,
        5,
    ),
    (
        "site called 40, given twice",
        "network 1\nN 40\nN 40\n",
        17,
        2,
    ),
    ("edition 2, site called 40", "network 2\nN a\nN 40\n", 17, 3),
    (
        "edition 2, marked site called 0",
        "network 2\nN a\nT 0\n",
        17,
        3,
    ),
    ("name of 13 digits", "network 1\nN 1234567890123\n", 11, 2),
    (
        "name of 13 zeros, marked",
        "network 1\nT 0000000000000\n",
        11,
        2,
    ),
    ("digits and a sign", "network 1\nN 40-\n", 11, 2),
    ("digits and the byte above them", "network 1\nN 9:\n", 11, 2),
    ("digits and the byte below them", "network 1\nN /0\n", 11, 2),
    ("digits and a space", "network 1\nN 4~0\n", 11, 2),
    ("digits and byte 13", "network 1\nN 40\r\n", 11, 2),
    (
        "site called 40 with a third field",
        "network 1\nN 40 b\n",
        10,
        2,
    ),
    ("site with two bare numbers", "network 1\nT 40 40\n", 10, 2),
    (
        "site called 40 with a small letter",
        "network 1\nn 40\n",
        2,
        2,
    ),
    (
        "site called 40 with a space for the tab",
        "network 1\nN~40\n",
        2,
        2,
    ),
    (
        "site called 40 without byte 10",
        "network 1\nN a\nN 40",
        2,
        3,
    ),
    ("first name 40", "network 1\nN a\nN b\nL 40 b 1\n", 17, 4),
    ("second name 40", "network 1\nN a\nN b\nL a 40 1\n", 17, 4),
    ("first name 007", "network 1\nN a\nN b\nL 007 b 1\n", 17, 4),
    (
        "second name of 12 zeros",
        "network 1\nN a\nN b\nL a 000000000000 1\n",
        17,
        4,
    ),
    (
        "two bare numbers as names",
        "network 1\nN a\nN b\nL 40 7 1\n",
        17,
        4,
    ),
    (
        "one bare number as both names",
        "network 1\nN a\nN b\nL 40 40 1\n",
        17,
        4,
    ),
    (
        "names and numbers alike",
        "network 1\nN a\nN b\nL 1 1 1 1\n",
        17,
        4,
    ),
    (
        "edition 2, first name 40",
        "network 2\nN a\nN b\nL 40 b 1\n",
        17,
        4,
    ),
    (
        "edition 2, second name 40",
        "network 2\nN a\nN b\nL a 40 1\n",
        17,
        4,
    ),
    (
        "first name 40, second name bad",
        "network 1\nN a\nN b\nL 40 b_ 1\n",
        11,
        4,
    ),
    (
        "first name bad, second name 40",
        "network 1\nN a\nN b\nL a_ 40 1\n",
        11,
        4,
    ),
    (
        "first name 40, second name empty",
        "network 1\nN a\nN b\nL 40  1\n",
        11,
        4,
    ),
    (
        "first name empty, second name 40",
        "network 1\nN a\nN b\nL  40 1\n",
        11,
        4,
    ),
    (
        "first name of 13 digits, second name 40",
        "network 1\nN a\nN b\nL 1234567890123 40 1\n",
        11,
        4,
    ),
    (
        "first name 40, second name of 13 digits",
        "network 1\nN a\nN b\nL 40 0000000000000 1\n",
        11,
        4,
    ),
    (
        "first name 40, a leading zero",
        "network 1\nN a\nN b\nL 40 b 07\n",
        17,
        4,
    ),
    (
        "second name 40, a leading zero",
        "network 1\nN a\nN b\nL a 40 07\n",
        17,
        4,
    ),
    (
        "second name 40, an empty size",
        "network 1\nN a\nN b\nL a 40 \n",
        17,
        4,
    ),
    (
        "first name 40, a bad reserve",
        "network 1\nN a\nN b\nL 40 b 5 x\n",
        17,
        4,
    ),
    (
        "second name 007, an empty reserve",
        "network 1\nN a\nN b\nL a 007 5 \n",
        17,
        4,
    ),
    (
        "first name 40, the size too large",
        "network 1\nN a\nN b\nL 40 b 1000001\n",
        17,
        4,
    ),
    (
        "second name 40, the reserve too large",
        "network 1\nN a\nN b\nL a 40 1 1000001\n",
        17,
        4,
    ),
    (
        "first name 40, the reserve above the size",
        "network 1\nN a\nN b\nL 40 b 1 2\n",
        17,
        4,
    ),
    (
        "first name 40, second name unknown",
        "network 1\nN a\nN b\nL 40 q 1\n",
        17,
        4,
    ),
    (
        "first name unknown, second name 40",
        "network 1\nN a\nN b\nL q 40 1\n",
        17,
        4,
    ),
    (
        "first name 40, no site above",
        "network 1\nL 40 b 1\n",
        17,
        2,
    ),
    (
        "second name 40, already joined",
        "network 1\nN a\nN b\nL a b 1\nL a 40 1\n",
        17,
        5,
    ),
    (
        "three fields, second name 40",
        "network 1\nN a\nN b\nL a 40\n",
        10,
        4,
    ),
    (
        "six fields, first name 40",
        "network 1\nN a\nN b\nL 40 b 1 1 1\n",
        10,
        4,
    ),
    (
        "first name 40 behind a small letter",
        "network 1\nN a\nN b\nl 40 b 1\n",
        2,
        4,
    ),
    (
        "second name 40 without byte 10",
        "network 1\nN a\nN b\nL a 40 1",
        2,
        4,
    ),
    (
        "first name of a letter and digits, unknown",
        "network 1\nN a\nN b\nL a40 b 1\n",
        6,
        4,
    ),
    (
        "second name of digits and a letter, unknown",
        "network 1\nN a\nN b\nL a 40a 1\n",
        6,
        4,
    ),
    (
        "names of digits and a letter in either case",
        "network 1\nN 4a\nN 4A\n",
        5,
        3,
    ),
    (
        "lowest line decides: 17 before 2",
        "network 1\nN 40\nP\n",
        17,
        2,
    ),
    (
        "lowest line decides: 17 before 11",
        "network 1\nN 40\nN a-b\n",
        17,
        2,
    ),
    (
        "lowest line decides: 5 before 17",
        "network 1\nN a\nN A\nN 40\n",
        5,
        3,
    ),
    (
        "lowest line decides: 12 before 17",
        "network 1\nN a\nN b\nL a b 07\nL a 40 1\n",
        12,
        4,
    ),
    ("heading decides before 17", "network 3\nN 40\n", 2, 1),
];
