//! The numbers and colours of end sets.

use crate::network::Network;
use crate::style::COUNT;
use crate::svg::{Anchor, Point, SMALL, Svg};

/// The height of a chip.
const HEIGHT: i32 = 16;

/// The mark of an end set: its number, counted from 1, and its colour if it has one.
#[derive(Clone, Copy)]
pub struct Chip {
    number: usize,
    /// Its colour.
    pub colour: Option<usize>,
}

/// The chips of all end sets of a network.
///
/// Sets of several sites are given colours in turn, which come again when there are more of them than colours. As long
/// as there are colours left, sets of one site have one of their own too; the others are grey.
pub fn chips(network: &Network) -> Vec<Chip> {
    let sets = &network.report.sets;
    let large = sets.iter().filter(|set| set.count > 1).count();
    let mut given = [0, large];
    let number_colour = |is_large: bool, given: &mut [usize; 2]| {
        let turn = &mut given[usize::from(!is_large)];
        let colour = if is_large || *turn < COUNT {
            Some(*turn % COUNT)
        } else {
            None
        };
        *turn += 1;
        colour
    };
    let colours = sets
        .iter()
        .map(|set| number_colour(set.count > 1, &mut given));
    let numbered = colours.zip(1..);
    numbered
        .map(|(colour, number)| Chip { number, colour })
        .collect()
}

impl Chip {
    fn text(self) -> String {
        self.number.to_string()
    }

    /// The width of the chip.
    pub fn width(self) -> i32 {
        SMALL.width(&self.text()) + 8
    }

    /// Draws the chip, given its left edge and its middle line.
    pub fn draw(self, svg: &mut Svg, [left, y]: Point) {
        let size = [self.width(), HEIGHT];
        let (fill, text) = match self.colour {
            Some(colour) => (format!("c{colour}"), format!("chip on{colour}")),
            None => ("grey".to_string(), "chip".to_string()),
        };
        svg.rect(&fill, [left, y - HEIGHT / 2], size, 4);
        let middle = [left + self.width() / 2, y + 4];
        svg.text(&text, SMALL, Anchor::Middle, middle, &self.text());
    }
}
