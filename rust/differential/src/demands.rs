//! What a report headed `plan` must fulfil, checked from the printed report alone.
//!
//! The plan fits, since no trimmed size passes the usable one and the loads are the trimmed sizes;
//! it has as much as the disjoint end sets let through, so no plan has more. Trimmed sizes and
//! end sets are worked out once more by the letter of their definitions.

use crate::printed::{Network, demand};
use report::{Lines, read};

/// The greatest sizes that leave no joint with a heavy link: heavy links are cut down, in
/// any order, until there are none.
fn trimmed(network: &Network) -> Vec<u64> {
    let mut trimmed: Vec<u64> = network.links.iter().map(|link| link.usable).collect();
    let mut sum: Vec<u64> = network
        .around
        .iter()
        .map(|links| links.iter().map(|&(link, _)| trimmed[link]).sum())
        .collect();
    let mut found = true;
    while found {
        found = false;
        for (link, size) in network.links.iter().zip(&mut trimmed) {
            for site in link.sites {
                let others = sum[site] - *size;
                if !network.is_end(site) && *size > others {
                    for site in link.sites {
                        sum[site] -= *size - others;
                    }
                    *size = others;
                    found = true;
                }
            }
        }
    }
    trimmed
}

/// The sites reached from an end over links whose trimmed size is below the usable size. Sets stop at other
/// ends; here they go on, and must not come to one, as it would be in two sets.
fn end_set(network: &Network, end: usize, trimmed: &[u64]) -> Vec<usize> {
    let mut reached = vec![end];
    let mut came_from = vec![usize::MAX];
    let mut next = 0;
    while next < reached.len() {
        for &(link, site) in &network.around[reached[next]] {
            if site != came_from[next] && trimmed[link] < network.links[link].usable {
                reached.push(site);
                came_from.push(reached[next]);
            }
        }
        next += 1;
    }
    reached
}

/// Checks the report of an accepted sheet, and returns its total in halves.
pub fn check(sheet: &[u8], report: &[u8]) -> Result<u64, String> {
    let network = Network::read(sheet)?;
    let mut lines = Lines { rest: report };
    let [total, pair_count] = lines.next("plan")?;
    let total = read(total)?;
    let pair_count = read(pair_count)?;

    let trimmed = trimmed(&network);
    for (link, size) in network.links.iter().zip(&trimmed) {
        let printed = network.link_line(&mut lines, link)?;
        demand(printed == *size, "a trimmed size is not the greatest")?;
    }

    let mut owner = vec![None; network.names.len()];
    for end in network.ends() {
        for site in end_set(&network, end, &trimmed) {
            demand(owner[site].is_none(), "a site is in two end sets")?;
            owner[site] = Some(end);
        }
    }
    for (site, owner) in owner.iter().enumerate() {
        let [name, printed] = lines.next("N")?;
        demand(network.is_name(name, site), "a site has another name")?;
        let is_owner = owner.map_or(printed == b"-", |end| network.is_name(printed, end));
        demand(is_owner, "a site has another owner")?;
    }

    let set_sum = network.set_lines(&mut lines, &owner)?;
    demand(
        set_sum == total,
        "the total is not the sum of the set sizes",
    )?;

    let pairs = network.pair_lines(&mut lines, pair_count)?;
    network.check_spelling(report)?;
    let pair_sum: u64 = pairs.iter().map(|&(_, amount)| amount).sum();
    demand(pair_sum == total, "the total is not the sum of the pairs")?;
    let loads = network.loads(&pairs);
    demand(
        loads
            .iter()
            .zip(&trimmed)
            .all(|(load, size)| *load == 2 * size),
        "a load is not the trimmed size",
    )?;
    Ok(total)
}

#[cfg(test)]
mod tests {
    use super::check;
    use sheets::tried::ACCEPTED;

    #[test]
    fn reports_written_by_hand() {
        for tried in &ACCEPTED {
            let checked = check(&tried.sheet(), &tried.report());
            assert!(checked.is_ok(), "{}: {checked:?}", tried.title);
        }
    }

    /// A sheet whose link is trimmed beyond a marked site, and its report.
    const SHEET: &str = "network 1\nN a\nT m\nN h\nN b\nN c\nL m a 5\nL m h 9\nL h b 1\nL h c 2\n";
    const REPORT: &str = "plan 16 3\nL m a 5 5\nL m h 9 3\nL h b 1 1\nL h c 2 2\n\
        N a a\nN m m\nN h m\nN b b\nN c c\nX a 5 1\nX m 8 2\nX b 1 1\nX c 2 1\n\
        P a m 10\nP m b 2\nP m c 4\n";

    #[test]
    fn wrong_at_a_marked_site() {
        let check = |report: &str| {
            let [sheet, report] = [SHEET, report].map(|text| text.replace(' ', "\t"));
            check(sheet.as_bytes(), report.as_bytes())
        };
        assert_eq!(check(REPORT), Ok(16));
        for (from, to, due) in [
            (
                "L m a 5 5",
                "L m a 5 3",
                "a trimmed size is not the greatest",
            ),
            (
                "L m h 9 3",
                "L m h 9 9",
                "a trimmed size is not the greatest",
            ),
            ("N h m", "N h -", "a site has another owner"),
            ("N a a", "N a m", "a site has another owner"),
            ("N m m", "T m m", "a line N of 2 fields is missing"),
            ("X m 8 2\n", "", "an end set has another name"),
            ("X m 8 2", "X m 3 2", "an end set has another size"),
            (
                "P a m 10\nP m b 2\nP m c 4",
                "P a m 10\nP a c 4\nP m b 2",
                "a pair has another end on its path",
            ),
            (
                "16 3\nL m a 5 5\nL m h 9 3",
                "16 2\nL m a 5 5\nL m h 9 3",
                "the report goes on after its pairs",
            ),
        ] {
            assert!(REPORT.contains(from), "{from:?}");
            let found = check(&REPORT.replacen(from, to, 1));
            assert_eq!(found, Err(due.to_string()), "{from:?} to {to:?}");
        }
    }
}
