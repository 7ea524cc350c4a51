//! Network sheets for tests and measurements: those of the scope document with their reports,
//! and seeded random ones of many shapes.

#![forbid(unsafe_code)]

pub mod bare;
pub mod cases;
pub mod drawn;
mod edition;
pub mod headings;
pub mod joined;
pub mod judged;
pub mod ledger;
pub mod logs;
pub mod marks;
pub mod neighbours;
pub mod order;
pub mod plans;
mod random;
pub mod ranges;
pub mod regions;
pub mod replay;
pub mod reserve;
pub mod shuffled;
pub mod span;
pub mod surveys;
mod tree;
pub mod tried;
pub mod whole;

pub use edition::Edition;
pub use random::Random;
pub use tree::{
    Layout, Names, Network, SHAPES, SIZES, Shape, Sizes, Spelling, join_lines, prufer_links,
    some_reserve,
};

/// The most sites a sheet may have: one of edition 2.
pub const SITES: usize = Edition::Two.sites();
/// The largest size of a link, and the largest reserve, in circuits.
pub const SIZE: u32 = 1_000_000;
