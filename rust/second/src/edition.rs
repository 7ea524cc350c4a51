//! The editions of network sheets, and their limits.

use crate::planted::{Error, planted};

/// An edition of network sheets. The largest size of a link is the same in all.
#[derive(Clone, Copy, Debug, PartialEq, Eq)]
pub struct Edition {
    /// Line 1 of its sheets, with byte 10.
    heading: &'static [u8],
    /// The most bytes a sheet may have.
    pub bytes: usize,
    /// The most sites a sheet may have.
    pub sites: usize,
    /// Whether link lines have a low and a high size.
    pub(crate) has_ranges: bool,
}

impl Edition {
    /// Sheets headed `network`, tab, `1`.
    pub const ONE: Edition = Edition {
        heading: b"network\t1\n",
        bytes: 16_384,
        sites: 256,
        has_ranges: false,
    };
    /// Sheets headed `network`, tab, `2`.
    pub const TWO: Edition = Edition {
        heading: b"network\t2\n",
        bytes: 24_576,
        sites: 384,
        has_ranges: false,
    };
    /// Range sheets, headed `ranges`, tab, `1`: they go by the limits of edition 2.
    pub(crate) const RANGES: Edition = Edition {
        heading: b"ranges\t1\n",
        has_ranges: true,
        ..Edition::TWO
    };
    /// All editions.
    pub const ALL: [Edition; 2] = [Edition::ONE, Edition::TWO];

    /// The edition whose heading is line 1 of a sheet, out of those that are known.
    pub(crate) fn of(sheet: &[u8], known: &[Edition]) -> Option<Edition> {
        if planted(Error::ThirdRead) && sheet.starts_with(b"network\t3\n") {
            return Some(Edition::TWO);
        }
        let is_told = |edition: &&Edition| sheet.starts_with(edition.heading);
        let told = known.iter().find(is_told).copied();
        if planted(Error::SecondUnknown) && told == Some(Edition::TWO) {
            return None;
        }
        told.map(Edition::limited)
    }

    /// The edition that a sheet is measured by whose line 1 is no heading.
    pub(crate) fn of_no_heading() -> Edition {
        if planted(Error::UnheadedBySecond) || planted(Error::LargerBytes) {
            return Edition::TWO;
        }
        Edition::ONE
    }

    /// What the program for ranges knows: range sheets alone.
    pub(crate) fn known_for_ranges() -> Vec<Edition> {
        let headed = |edition: Edition| Edition {
            heading: edition.heading,
            ..Edition::RANGES
        };
        if planted(Error::RangesByFirst) {
            let limits = Edition::ONE;
            return vec![Edition {
                bytes: limits.bytes,
                sites: limits.sites,
                ..Edition::RANGES
            }];
        }
        if planted(Error::EditionAsRanges) {
            return [Edition::RANGES, Edition::ONE, Edition::TWO]
                .map(headed)
                .to_vec();
        }
        vec![Edition::RANGES]
    }

    /// Where line 2 of a sheet starts.
    pub(crate) fn second_line(self) -> usize {
        self.heading.len()
    }

    /// The same edition with its limits, unless an error is planted in them.
    #[inline(always)]
    fn limited(self) -> Edition {
        let is_second = self == Edition::TWO;
        let of_other = |limits: Edition| Edition {
            heading: self.heading,
            ..limits
        };
        if planted(Error::SecondForAll) {
            return of_other(Edition::TWO);
        }
        if planted(Error::FirstForAll) {
            return of_other(Edition::ONE);
        }
        let mut edition = self;
        if planted(Error::LargerBytes) {
            edition.bytes = Edition::TWO.bytes;
        }
        if planted(Error::FirstBytes) {
            edition.bytes = Edition::ONE.bytes;
        }
        let accepts_more = if is_second {
            planted(Error::SiteMoreInSecond)
        } else {
            planted(Error::SiteMoreInFirst)
        };
        edition.sites += usize::from(accepts_more);
        edition
    }
}
