//! The greatest total of a small tree by linear programming, in exact fractions.
//!
//! Nothing of trimming, end sets, parts or pairing is used here: the amounts of all pairs of ends with no
//! other end on their path are the unknowns, the usable sizes of the links are the bounds, and the
//! simplex method finds the greatest total. It comes with a price per link that shows no plan has more.

use sheets::Network;
use std::cmp::Ordering;
use std::ops::{Add, Div, Mul, Sub};

/// A fraction in lowest terms with a positive denominator.
#[derive(Clone, Copy, Debug, PartialEq, Eq)]
pub struct Fraction {
    above: i128,
    below: i128,
}

impl Fraction {
    const ZERO: Fraction = Fraction { above: 0, below: 1 };
    const ONE: Fraction = Fraction { above: 1, below: 1 };

    fn new(above: i128, below: i128) -> Self {
        let (mut divisor, mut rest) = (below.abs(), above.abs());
        while rest != 0 {
            (divisor, rest) = (rest, divisor % rest);
        }
        let divisor = divisor * below.signum();
        Fraction {
            above: above / divisor,
            below: below / divisor,
        }
    }

    /// A whole number.
    pub fn whole(number: u64) -> Self {
        Fraction {
            above: i128::from(number),
            below: 1,
        }
    }
}

impl Add for Fraction {
    type Output = Self;
    fn add(self, other: Self) -> Self {
        Self::new(
            self.above * other.below + other.above * self.below,
            self.below * other.below,
        )
    }
}

impl Sub for Fraction {
    type Output = Self;
    fn sub(self, other: Self) -> Self {
        Self::new(
            self.above * other.below - other.above * self.below,
            self.below * other.below,
        )
    }
}

impl Mul for Fraction {
    type Output = Self;
    fn mul(self, other: Self) -> Self {
        Self::new(self.above * other.above, self.below * other.below)
    }
}

impl Div for Fraction {
    type Output = Self;
    fn div(self, other: Self) -> Self {
        Self::new(self.above * other.below, self.below * other.above)
    }
}

impl PartialOrd for Fraction {
    fn partial_cmp(&self, other: &Self) -> Option<Ordering> {
        Some(self.cmp(other))
    }
}

impl Ord for Fraction {
    fn cmp(&self, other: &Self) -> Ordering {
        (self.above * other.below).cmp(&(other.above * self.below))
    }
}

/// The links on the path between each two ends with no other end on it.
pub fn paths(network: &Network) -> Vec<Vec<usize>> {
    let sites = 0..network.names.len();
    let ends: Vec<usize> = sites.filter(|&site| network.is_end(site)).collect();
    let mut paths = Vec::new();
    for (position, &from) in ends.iter().enumerate() {
        for &to in &ends[position + 1..] {
            let is_free = |path: &Vec<usize>| {
                let mut on_path = path.iter().flat_map(|&link| network.links[link]);
                on_path.all(|site| site == from || site == to || !ends.contains(&site))
            };
            paths.extend(path(network, from, to, usize::MAX).filter(is_free));
        }
    }
    paths
}

/// The links from one site to another without going through the link `except`.
fn path(network: &Network, from: usize, to: usize, except: usize) -> Option<Vec<usize>> {
    if from == to {
        return Some(Vec::new());
    }
    (0..network.links.len()).find_map(|link| {
        let [one, other] = network.links[link];
        if link == except || (one != from && other != from) {
            return None;
        }
        let mut rest = path(network, one + other - from, to, link)?;
        rest.push(link);
        Some(rest)
    })
}

/// The greatest total of amounts between ends of a tree with no other end between them, none less than 0,
/// whose loads pass no usable size.
///
/// # Panics
///
/// If the prices do not show that the total is the greatest.
pub fn greatest_total(network: &Network) -> Fraction {
    let paths = paths(network);
    let sizes: Vec<Fraction> = network
        .usable_sizes()
        .into_iter()
        .map(|size| Fraction::whole(u64::from(size)))
        .collect();
    let (amounts, prices) = simplex(&paths, &sizes);

    let sum = |numbers: &mut dyn Iterator<Item = Fraction>| numbers.fold(Fraction::ZERO, Add::add);
    let total = sum(&mut amounts.iter().copied());
    assert!(
        amounts
            .iter()
            .chain(&prices)
            .all(|&number| number >= Fraction::ZERO)
    );
    for (link, &size) in sizes.iter().enumerate() {
        let mut over_link = paths
            .iter()
            .zip(&amounts)
            .filter(|(path, _)| path.contains(&link))
            .map(|(_, &amount)| amount);
        assert!(sum(&mut over_link) <= size, "a load passes its usable size");
    }
    for path in &paths {
        let price = sum(&mut path.iter().map(|&link| prices[link]));
        assert!(price >= Fraction::ONE, "a path costs less than it brings");
    }
    let cost = sum(&mut prices
        .iter()
        .zip(&sizes)
        .map(|(&price, &size)| price * size));
    assert!(cost == total, "the prices do not meet the total");
    total
}

/// The amount of each path and the price of each link, by the simplex method with the rule of
/// lowest numbers, which always ends.
fn simplex(paths: &[Vec<usize>], sizes: &[Fraction]) -> (Vec<Fraction>, Vec<Fraction>) {
    // Columns: one for each path, one for what is left of each link, and the right-hand side.
    let rows = sizes.len();
    let columns = paths.len() + rows;
    let mut table = vec![vec![Fraction::ZERO; columns + 1]; rows + 1];
    for (column, path) in paths.iter().enumerate() {
        for &link in path {
            table[link][column] = Fraction::ONE;
        }
        table[rows][column] = Fraction::ZERO - Fraction::ONE;
    }
    for (row, &size) in sizes.iter().enumerate() {
        table[row][paths.len() + row] = Fraction::ONE;
        table[row][columns] = size;
    }
    let mut basis: Vec<usize> = (paths.len()..columns).collect();

    while let Some(entering) = (0..columns).find(|&column| table[rows][column] < Fraction::ZERO) {
        let leaving = (0..rows)
            .filter(|&row| table[row][entering] > Fraction::ZERO)
            .min_by_key(|&row| (table[row][columns] / table[row][entering], basis[row]))
            .expect("every path is bounded by its links");
        let pivot = table[leaving][entering];
        let pivot_row: Vec<Fraction> = table[leaving].iter().map(|&entry| entry / pivot).collect();
        for (row, entries) in table.iter_mut().enumerate() {
            let factor = entries[entering];
            for (entry, &in_pivot_row) in entries.iter_mut().zip(&pivot_row) {
                *entry = if row == leaving {
                    in_pivot_row
                } else {
                    *entry - factor * in_pivot_row
                };
            }
        }
        basis[leaving] = entering;
    }

    let mut amounts = vec![Fraction::ZERO; paths.len()];
    for (row, &column) in basis.iter().enumerate() {
        if let Some(amount) = amounts.get_mut(column) {
            *amount = table[row][columns];
        }
    }
    (amounts, table[rows][paths.len()..columns].to_vec())
}
