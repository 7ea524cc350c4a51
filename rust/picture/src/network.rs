//! A sheet and its printed report, as they are drawn: everything about plans is taken from the report.

use report::Report;

/// What a site is.
#[derive(Clone, Copy, Debug, PartialEq, Eq)]
pub enum Kind {
    /// An end with just one link and no mark.
    End,
    /// An end that the sheet marks.
    Marked,
    /// Any other site.
    Joint,
}

/// A network to draw.
pub struct Network<'text> {
    /// What the planner says.
    pub report: Report<'text>,
    /// What each site is.
    pub kinds: Vec<Kind>,
    /// For each site its links: their numbers and their other sites, in the order of the sites.
    pub around: Vec<Vec<(usize, usize)>>,
    /// For each site the number of the end set that holds it, if one does.
    pub set: Vec<Option<usize>>,
}

impl<'text> Network<'text> {
    /// Reads the report of a sheet; from the sheet itself only the marks are taken, which no report tells.
    pub fn read(sheet: &[u8], report: &'text [u8]) -> Result<Self, String> {
        let report = Report::read(report)?;
        let lines = sheet.split(|&byte| byte == b'\n');
        let letters = lines.filter_map(|line| match line {
            [letter @ (b'N' | b'T'), b'\t', ..] => Some(*letter),
            _ => None,
        });
        let mut kinds: Vec<Kind> = letters
            .map(|letter| match letter {
                b'T' => Kind::Marked,
                _ => Kind::Joint,
            })
            .collect();
        if kinds.len() != report.names.len() {
            return Err("the report has another number of sites than the sheet".to_string());
        }
        let mut set_of_end = vec![None; kinds.len()];
        for (number, set) in report.sets.iter().enumerate() {
            set_of_end[set.end] = Some(number);
            if kinds[set.end] == Kind::Joint {
                kinds[set.end] = Kind::End;
            }
        }
        Ok(Network {
            around: around(&report),
            set: report
                .owners
                .iter()
                .map(|owner| set_of_end[(*owner)?])
                .collect(),
            report,
            kinds,
        })
    }

    /// Whether a site is an end.
    pub fn is_end(&self, site: usize) -> bool {
        self.kinds[site] != Kind::Joint
    }

    /// Whether the report is the one in whole circuits.
    pub fn is_whole(&self) -> bool {
        self.report.odd_pieces.is_some()
    }

    /// The largest usable size of a link.
    pub fn largest(&self) -> u64 {
        let sizes = self.report.links.iter().map(|link| link.usable);
        sizes.max().unwrap_or(0)
    }
}

/// For each site its links and their other sites.
fn around(report: &Report) -> Vec<Vec<(usize, usize)>> {
    let mut around = vec![Vec::new(); report.names.len()];
    for (number, link) in report.links.iter().enumerate() {
        let [one, other] = link.sites;
        around[one].push((number, other));
        around[other].push((number, one));
    }
    for links in &mut around {
        links.sort_unstable_by_key(|&(_, other)| other);
    }
    around
}

/// An amount of halves in circuits, with `½` for a half.
pub fn circuits(halves: u64) -> String {
    match (halves / 2, halves % 2) {
        (whole, 0) => whole.to_string(),
        (0, _) => "½".to_string(),
        (whole, _) => format!("{whole}½"),
    }
}

/// So many of a thing, in words.
pub fn count(number: u64, thing: &str) -> String {
    let ending = if number == 1 { "" } else { "s" };
    format!("{number} {thing}{ending}")
}
