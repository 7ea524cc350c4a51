//! Pictures of network sheets: the tree, and what the proved planner says of it.
//!
//! Everything about plans is taken from the printed report; nothing is planned here. The one exception is [`Page::Steps`],
//! which shows the cutting of links with a pencil, and draws nothing unless it ends in the trimmed sizes that are printed.

#![forbid(unsafe_code)]

mod arcs;
mod chips;
mod layout;
mod legend;
mod network;
pub mod options;
mod page;
mod plan_page;
mod steps;
mod steps_page;
mod style;
mod svg;
mod table;
mod tree;

use network::Network;
use std::fmt;
use waderarmoire::{REPORT_BYTES, Refusal, SITES};

/// What is drawn.
#[derive(Clone, Copy, Debug, PartialEq, Eq)]
pub enum Page {
    /// A plan.
    Plan {
        /// Whether it is the one in whole circuits.
        is_whole: bool,
        /// Whether its pairs are arcs, and not a table.
        has_arcs: bool,
    },
    /// Trimming step by step.
    Steps,
}

/// Why there is no picture.
#[derive(Clone, Debug, PartialEq, Eq)]
pub enum Failure {
    /// The sheet is refused.
    Refused(Refusal),
    /// Anything else, in words: a page has no room for so many steps, say.
    Other(String),
}

impl From<Refusal> for Failure {
    fn from(refusal: Refusal) -> Self {
        Failure::Refused(refusal)
    }
}

impl From<String> for Failure {
    fn from(what: String) -> Self {
        Failure::Other(what)
    }
}

/// The line that the program writes to standard error, without its line feed.
impl fmt::Display for Failure {
    fn fmt(&self, out: &mut fmt::Formatter<'_>) -> fmt::Result {
        match self {
            Failure::Refused(refusal) => write!(out, "{refusal}"),
            Failure::Other(what) => write!(out, "picture: {what}"),
        }
    }
}

/// Draws a sheet as the text of an SVG.
///
/// # Errors
///
/// Why there is nothing to draw: the refusal of the sheet, or more steps than a page has room for.
pub fn draw(sheet: &[u8], page: Page) -> Result<String, Failure> {
    let mut buffer = vec![0; REPORT_BYTES];
    let planner = match page {
        Page::Plan { is_whole: true, .. } => waderarmoire::whole,
        Page::Plan { .. } | Page::Steps => waderarmoire::plan,
    };
    let report = planner(sheet, &mut buffer)?;
    let network = Network::read(sheet, report)?;
    match page {
        Page::Plan { has_arcs, .. } => Ok(plan_page::plan_page(&network, has_arcs)),
        Page::Steps => {
            let mut list = [0; SITES];
            let order = waderarmoire::order(sheet, &mut list)?;
            let order: Vec<usize> = order.iter().map(|number| number - 1).collect();
            Ok(steps_page::steps_page(&network, &order)?)
        }
    }
}
