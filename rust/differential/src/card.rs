//! What a report headed `whole` must fulfil, by the words of its card, checked from the printed
//! report alone.
//!
//! Loads and end sets are free as long as these demands hold of them. The plan fits and has even
//! amounts; it has as much as the disjoint end sets and the odd pieces between them let through,
//! so no plan with even amounts has more (source document 004, theorem 2).

use crate::printed::{Network, demand};
use report::{Lines, read};

/// What a report says.
#[derive(Clone, Copy, Debug, PartialEq, Eq)]
pub struct Checked {
    /// The total in halves.
    pub total: u64,
    /// The number of odd pieces.
    pub odd_pieces: u64,
}

/// Checks the report of an accepted sheet.
pub fn check(sheet: &[u8], report: &[u8]) -> Result<Checked, String> {
    let network = Network::read(sheet)?;
    let mut lines = Lines { rest: report };
    let [total, pair_count] = lines.next("whole")?;
    let total = read(total)?;
    let pair_count = read(pair_count)?;

    let mut loads = Vec::with_capacity(network.links.len());
    for link in &network.links {
        loads.push(network.link_line(&mut lines, link)?);
    }
    let owner = owners(&network, &mut lines)?;
    let set_sum = network.set_lines(&mut lines, &owner)?;
    let [printed] = lines.next("Q")?;
    let odd_pieces = odd_pieces(&network, &owner);
    demand(
        read(printed)? == odd_pieces,
        "the odd pieces are counted wrongly",
    )?;
    demand(
        set_sum == total + odd_pieces,
        "the total is not the set sizes less the odd pieces",
    )?;

    let pair_lines = lines.rest;
    let pairs = network.pair_lines(&mut lines, pair_count)?;
    network.check_spelling(report)?;
    let mut amounts = pairs.iter().map(|&(_, amount)| amount);
    demand(
        amounts.clone().all(|amount| amount % 2 == 0),
        "an amount is odd",
    )?;
    demand(
        amounts.by_ref().sum::<u64>() == total,
        "the total is not the sum of the pairs",
    )?;
    let printed = network.links.iter().zip(&loads);
    for ((link, load), halves) in printed.zip(network.loads(&pairs)) {
        demand(halves <= 2 * link.usable, "a load passes its usable size")?;
        demand(halves == 2 * load, "a load is not that of the pairs")?;
    }
    // What pairs with even amounts load fully is whole and not heavy, so the walk can be taken.
    let loads: Vec<u32> = loads.iter().map(|&load| load as u32).collect();
    demand(
        second::pair_lines(sheet, &loads).as_deref() == Some(pair_lines),
        "the pairs are not those of the walk",
    )?;
    Ok(Checked { total, odd_pieces })
}

/// The owner of each site on its line: an end, and for an end itself.
fn owners(network: &Network, lines: &mut Lines) -> Result<Vec<Option<usize>>, String> {
    let mut owners = Vec::with_capacity(network.names.len());
    for site in 0..network.names.len() {
        let [printed, owner] = lines.next("N")?;
        demand(network.is_name(printed, site), "a site has another name")?;
        let owner = if owner == b"-" {
            None
        } else {
            Some(network.site(owner).ok_or("an owner has an unknown name")?)
        };
        demand(
            owner.is_none_or(|owner| network.is_end(owner)),
            "an owner is no end",
        )?;
        demand(
            !network.is_end(site) || owner == Some(site),
            "an end is not in its own set",
        )?;
        owners.push(owner);
    }
    Ok(owners)
}

/// Counts the odd pieces. A piece is a largest connected group of sites in no set, where a link of
/// usable size 0 connects nothing; it is odd if the links leaving it sum to an odd number.
fn odd_pieces(network: &Network, owner: &[Option<usize>]) -> u64 {
    let mut piece = vec![usize::MAX; owner.len()];
    let mut count = 0;
    for first in 0..owner.len() {
        if owner[first].is_some() || piece[first] != usize::MAX {
            continue;
        }
        let mut group = vec![first];
        piece[first] = first;
        let mut next = 0;
        while next < group.len() {
            for &(link, other) in &network.around[group[next]] {
                let connects = network.links[link].usable > 0 && owner[other].is_none();
                if connects && piece[other] == usize::MAX {
                    piece[other] = first;
                    group.push(other);
                }
            }
            next += 1;
        }
        let leaving: u64 = group
            .iter()
            .flat_map(|&site| &network.around[site])
            .filter(|&&(_, other)| piece[other] != first)
            .map(|&(link, _)| network.links[link].usable)
            .sum();
        count += leaving % 2;
    }
    count
}

#[cfg(test)]
mod tests {
    use super::{Checked, check};

    /// A sheet with its report in whole circuits, a space for each tab.
    struct Case {
        sheet: &'static str,
        report: &'static str,
    }

    const STAR: Case = Case {
        sheet: "network 1\nN hub\nN a\nN b\nN c\nL hub a 1\nL hub b 1\nL hub c 1\n",
        report: "\
whole 2 1
L hub a 1 0
L hub b 1 1
L hub c 1 1
N hub -
N a a
N b b
N c c
X a 1 1
X b 1 1
X c 1 1
Q 1
P b c 2
",
    };

    const EVEN_STAR: Case = Case {
        sheet: "network 1\nN hub\nN a\nN b\nN c\nN d\n\
                L hub a 2\nL hub b 2\nL hub c 1\nL hub d 1\n",
        report: "\
whole 6 3
L hub a 2 2
L hub b 2 2
L hub c 1 1
L hub d 1 1
N hub -
N a a
N b b
N c c
N d d
X a 2 1
X b 2 1
X c 1 1
X d 1 1
Q 0
P a b 2
P a c 2
P b d 2
",
    };

    const TWO_STARS: Case = Case {
        sheet: "network 1\nN h\nN k\nN a\nN b\nN c\nN d\nN e\nN f\nL h k 0\n\
                L h a 1\nL h b 1\nL h c 1\nL k d 1\nL k e 1\nL k f 1\n",
        report: "\
whole 4 2
L h k 0 0
L h a 1 1
L h b 1 1
L h c 1 0
L k d 1 0
L k e 1 1
L k f 1 1
N h -
N k -
N a a
N b b
N c c
N d d
N e e
N f f
X a 1 1
X b 1 1
X c 1 1
X d 1 1
X e 1 1
X f 1 1
Q 2
P a b 2
P e f 2
",
    };

    const MARKED: Case = Case {
        sheet: "network 1\nN h\nN k\nT m\nN a\nN b\nN c\nN d\n\
                L h m 1\nL h a 1\nL h b 1\nL k m 1\nL k c 1\nL k d 1\n",
        report: "\
whole 4 2
L h m 1 0
L h a 1 1
L h b 1 1
L k m 1 0
L k c 1 1
L k d 1 1
N h -
N k -
N m m
N a a
N b b
N c c
N d d
X m 2 1
X a 1 1
X b 1 1
X c 1 1
X d 1 1
Q 2
P a b 2
P c d 2
",
    };

    fn checked(sheet: &str, report: &str) -> Result<Checked, String> {
        let [sheet, report] = [sheet, report].map(|text| text.replace(' ', "\t"));
        check(sheet.as_bytes(), report.as_bytes())
    }

    #[test]
    fn right_reports() {
        for (case, total, odd_pieces) in [
            (&STAR, 2, 1),
            (&EVEN_STAR, 6, 0),
            (&TWO_STARS, 4, 2),
            (&MARKED, 4, 2),
        ] {
            let due = Ok(Checked { total, odd_pieces });
            assert_eq!(checked(case.sheet, case.report), due);
        }
    }

    /// Changes a report, each `from` to its `to`, and expects what is then found wrong first.
    fn wrong(case: &Case, changes: &[(&str, &str)], due: &str) {
        let mut report = case.report.to_string();
        for (from, to) in changes {
            assert!(report.contains(from), "{from:?}");
            report = report.replacen(from, to, 1);
        }
        let found = checked(case.sheet, &report);
        assert_eq!(found, Err(due.to_string()), "{changes:?}");
    }

    #[test]
    fn wrong_heading_and_links() {
        let odd_total = "the total is not the set sizes less the odd pieces";
        for (from, to, due) in [
            ("whole", "plan", "a line whole of 2 fields is missing"),
            (
                "whole 2 1",
                "whole 2",
                "a line whole of 2 fields is missing",
            ),
            ("whole 2", "whole 02", "a number is written wrongly"),
            ("whole 2", "whole 3", odd_total),
            ("whole 2", "whole 1", odd_total),
            (
                "whole 2 1",
                "whole 2 0",
                "the report goes on after its pairs",
            ),
            ("whole 2 1", "whole 2 2", "a line P of 3 fields is missing"),
            ("whole 2 1", "whole 2 4", "there are more pairs than links"),
            ("L hub a", "L a hub", "a link has other names"),
            ("L hub a 1", "L hub a 2", "a link has another usable size"),
            (
                "L hub a 1 0",
                "L hub a 1 1",
                "a load is not that of the pairs",
            ),
            (
                "L hub b 1 1",
                "L hub b 1 0",
                "a load is not that of the pairs",
            ),
        ] {
            wrong(&STAR, &[(from, to)], due);
        }
    }

    #[test]
    fn wrong_sets_and_pieces() {
        for (from, to, due) in [
            ("N hub -", "N hub x", "an owner has an unknown name"),
            ("N hub -", "N hub hub", "an owner is no end"),
            ("N hub -", "N a -", "a site has another name"),
            ("N a a", "N a -", "an end is not in its own set"),
            ("N a a", "N a b", "an end is not in its own set"),
            ("X a 1 1", "X b 1 1", "an end set has another name"),
            ("X a 1 1", "X a 2 1", "an end set has another size"),
            ("X a 1 1", "X a 1 2", "an end set has another count"),
            ("N hub -", "N hub a", "an end set has another size"),
            ("Q 1\n", "", "a line Q of 1 fields is missing"),
            ("Q 1", "Q 0", "the odd pieces are counted wrongly"),
        ] {
            wrong(&STAR, &[(from, to)], due);
        }
        // The joint in a set: there is no odd piece, and the sets let too much through.
        wrong(
            &STAR,
            &[
                ("N hub -", "N hub a"),
                ("X a 1 1", "X a 2 2"),
                ("Q 1", "Q 0"),
            ],
            "the total is not the set sizes less the odd pieces",
        );
        for joined in ["Q 0", "Q 1"] {
            let due = "the odd pieces are counted wrongly";
            wrong(&TWO_STARS, &[("Q 2", joined)], due);
        }
    }

    #[test]
    fn wrong_at_a_marked_site() {
        for (from, to, due) in [
            ("N m m", "T m m", "a line N of 2 fields is missing"),
            ("N m m", "N m -", "an end is not in its own set"),
            ("N m m", "N m a", "an end is not in its own set"),
            ("X m 2 1\n", "", "an end set has another name"),
            ("X m 2 1", "X m 1 1", "an end set has another size"),
            ("Q 2", "Q 1", "the odd pieces are counted wrongly"),
            (
                "P a b 2\nP c d 2",
                "P a c 2\nP b d 2",
                "a pair has another end on its path",
            ),
        ] {
            wrong(&MARKED, &[(from, to)], due);
        }
        // Without the mark the same report has a set of a joint.
        let sheet = MARKED.sheet.replace("T m", "N m");
        let due = Err("an owner is no end".to_string());
        assert_eq!(checked(&sheet, MARKED.report), due);
    }

    #[test]
    fn wrong_spelling() {
        let due = "a name is spelt otherwise than on its site's line";
        for (from, to) in [
            ("L hub a", "L Hub a"),
            ("L hub b", "L hub B"),
            ("N hub -", "N HUB -"),
            ("N a a", "N A a"),
            ("N c c", "N c C"),
            ("X b", "X B"),
            ("P b c", "P B c"),
            ("P b c", "P b C"),
        ] {
            wrong(&STAR, &[(from, to)], due);
        }
        // A sheet may spell names otherwise on its link lines, its report may not.
        let sheet = STAR
            .sheet
            .replace("L hub a 1\nL hub b", "L HUB A 1\nL hUb b");
        let right = Checked {
            total: 2,
            odd_pieces: 1,
        };
        assert_eq!(checked(&sheet, STAR.report), Ok(right));
        let report = STAR.report.replace("L hub a", "L HUB A");
        assert_eq!(checked(&sheet, &report), Err(due.to_string()));
        // In either case it is another name.
        wrong(&STAR, &[("L hub a", "L hub A0")], "a link has other names");
    }

    #[test]
    fn reserves() {
        // The same usable sizes: a report in the sizes as given is wrong.
        let star = ("L hub a 1\nL hub b 1\n", "L hub a 4 3\nL hub b 1 0\n");
        let two_stars = ("L h k 0\n", "L h k 2 2\n");
        for (case, (from, to), given) in [
            (&STAR, star, ("L hub a 1", "L hub a 4")),
            (&TWO_STARS, two_stars, ("L h k 0", "L h k 2")),
        ] {
            let sheet = case.sheet.replace(from, to);
            assert_ne!(sheet, case.sheet);
            let right = checked(case.sheet, case.report);
            assert!(right.is_ok());
            assert_eq!(checked(&sheet, case.report), right);
            let printed = case.report.replace(given.0, given.1);
            let due = "a link has another usable size".to_string();
            assert_eq!(checked(&sheet, &printed), Err(due));
        }
        // One link all held back: the usable sizes leave no odd piece.
        let sheet = STAR.sheet.replace("L hub a 1", "L hub a 1 1");
        let sets = [("L hub a 1 0", "L hub a 0 0"), ("X a 1 1", "X a 0 1")];
        let report = sets
            .iter()
            .fold(STAR.report.to_string(), |text, (from, to)| {
                text.replace(from, to)
            });
        let due = "the odd pieces are counted wrongly".to_string();
        assert_eq!(checked(&sheet, &report), Err(due));
        let right = Checked {
            total: 2,
            odd_pieces: 0,
        };
        assert_eq!(checked(&sheet, &report.replace("Q 1", "Q 0")), Ok(right));
    }

    #[test]
    fn wrong_pairs() {
        for (from, to, due) in [
            ("P b c 2", "P c b 2", "a pair names its later site first"),
            ("P b c 2", "P b b 2", "a pair names its later site first"),
            ("P b c 2", "P hub c 2", "a pair names a joint"),
            ("P b c 2", "P b x 2", "a pair has an unknown name"),
            ("P b c 2", "P b c 0", "a pair has nothing"),
            ("P b c 2", "P b c 3", "an amount is odd"),
            (
                "P b c 2",
                "P b c 4",
                "the total is not the sum of the pairs",
            ),
            ("P b c 2", "P a b 2", "a load is not that of the pairs"),
            ("P b c 2\n", "P b c 2", "a line P of 3 fields is missing"),
        ] {
            wrong(&STAR, &[(from, to)], due);
        }
        let pairs = "P a b 2\nP a c 2\nP b d 2\n";
        let out_of_order = "P a c 2\nP a b 2\nP b d 2\n";
        wrong(
            &EVEN_STAR,
            &[(pairs, out_of_order)],
            "pairs are out of order",
        );
        // The same loads by other pairs.
        wrong(
            &EVEN_STAR,
            &[("whole 6 3", "whole 6 2"), (pairs, "P a b 4\nP c d 2\n")],
            "the pairs are not those of the walk",
        );
        wrong(
            &EVEN_STAR,
            &[("whole 6 3", "whole 6 2"), (pairs, "P a b 2\nP c d 4\n")],
            "a load is not that of the pairs",
        );
        wrong(
            &EVEN_STAR,
            &[
                ("whole 6 3", "whole 6 2"),
                ("L hub a 2 2\nL hub b 2 2", "L hub a 2 1\nL hub b 2 1"),
                ("L hub c 1 1\nL hub d 1 1", "L hub c 1 2\nL hub d 1 2"),
                (pairs, "P a b 2\nP c d 4\n"),
            ],
            "a load passes its usable size",
        );
    }
}
