//! Trimming step by step, as with a pencil: the one place where sizes are worked out here, and they must end in those
//! that the planner prints.

use crate::network::Network;

/// A link that is cut.
#[derive(Clone, Copy, Debug, PartialEq, Eq)]
pub struct Cut {
    /// The link.
    pub link: usize,
    /// Its size before.
    pub from: u64,
    /// Its size after: the sum of the other links at the site.
    pub to: u64,
}

/// A site taken, inward or on the way back out.
#[derive(Clone, Debug)]
pub struct Step {
    /// The number of the step, counted from 1.
    pub number: usize,
    /// The site.
    pub site: usize,
    /// Whether it is taken on the way inward.
    pub is_inward: bool,
    /// What is cut there.
    pub cut: Option<Cut>,
    /// The sizes of all links after it.
    pub sizes: Vec<u64>,
}

/// The link that is heavy at a site: at a joint, larger than all other links there together.
fn heavy(network: &Network, sizes: &[u64], site: usize) -> Option<Cut> {
    if network.is_end(site) {
        return None;
    }
    let links = &network.around[site];
    let sum: u64 = links.iter().map(|&(link, _)| sizes[link]).sum();
    let mut cuts = links.iter().map(|&(link, _)| Cut {
        link,
        from: sizes[link],
        to: sum - sizes[link],
    });
    cuts.find(|cut| cut.from > cut.to)
}

/// All steps along an order of sites, inward and back out.
///
/// # Errors
///
/// If the last sizes are not the trimmed ones of the report.
pub fn steps(network: &Network, order: &[usize]) -> Result<Vec<Step>, String> {
    let links = network.report.links.iter();
    let mut sizes: Vec<u64> = links.clone().map(|link| link.usable).collect();
    let mut steps = Vec::with_capacity(2 * order.len());
    for (&site, number) in order.iter().chain(order.iter().rev()).zip(1..) {
        let cut = heavy(network, &sizes, site);
        if let Some(cut) = cut {
            sizes[cut.link] = cut.to;
        }
        steps.push(Step {
            number,
            site,
            is_inward: number <= order.len(),
            cut,
            sizes: sizes.clone(),
        });
    }
    if links.map(|link| link.carried).eq(sizes) {
        Ok(steps)
    } else {
        Err(
            "cutting along the order of work does not end in the trimmed sizes of the report"
                .to_string(),
        )
    }
}

#[cfg(test)]
mod tests {
    use super::{Cut, steps};
    use crate::network::Network;

    const SHEET: &str = "network 1\nN hub\nN a\nN b\nN c\nL hub a 5\nL hub b 1\nL hub c 1\n";
    const REPORT: &str = "plan 4 2\nL hub a 5 2\nL hub b 1 1\nL hub c 1 1\nN hub a\nN a a\nN b b\nN c c\n\
        X a 2 2\nX b 1 1\nX c 1 1\nP a b 2\nP a c 2\n";
    /// The order of work that 02 gives for this star, counted from 0.
    const ORDER: [usize; 4] = [1, 2, 0, 3];

    #[test]
    fn star() {
        let [sheet, report] = [SHEET, REPORT].map(|text| text.replace(' ', "\t"));
        let network = Network::read(sheet.as_bytes(), report.as_bytes()).unwrap();
        let steps = steps(&network, &ORDER).unwrap();
        let due = Cut {
            link: 0,
            from: 5,
            to: 2,
        };
        for step in &steps {
            assert_eq!(step.cut, (step.number == 3).then_some(due));
            let first = if step.number < 3 { 5 } else { 2 };
            assert_eq!(step.sizes, [first, 1, 1]);
        }
        assert_eq!(steps.len(), 8);
    }

    /// Steps that do not end in what is printed are not drawn.
    #[test]
    fn other_sizes_printed() {
        let sheet = SHEET.replace(' ', "\t");
        for (from, to) in [("5 2", "5 3"), ("5 2", "5 1"), ("b 1 1", "b 1 0")] {
            let report = REPORT.replace(from, to).replace(' ', "\t");
            let network = Network::read(sheet.as_bytes(), report.as_bytes()).unwrap();
            assert!(steps(&network, &ORDER).is_err(), "{to}");
        }
    }
}
