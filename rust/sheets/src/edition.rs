//! The editions of network sheets, and their limits.

/// An edition of network sheets.
#[derive(Clone, Copy, Debug, PartialEq, Eq)]
pub enum Edition {
    /// At most 16,384 bytes and 256 sites.
    One,
    /// At most 24,576 bytes and 384 sites.
    Two,
}

impl Edition {
    /// All editions.
    pub const ALL: [Edition; 2] = [Edition::One, Edition::Two];

    /// Line 1 of its sheets, byte 10 left off.
    #[must_use]
    pub const fn heading(self) -> &'static [u8] {
        match self {
            Edition::One => b"network\t1",
            Edition::Two => b"network\t2",
        }
    }

    /// The most bytes a sheet may have.
    #[must_use]
    pub const fn bytes(self) -> usize {
        match self {
            Edition::One => 16_384,
            Edition::Two => 24_576,
        }
    }

    /// The most sites a sheet may have.
    #[must_use]
    pub const fn sites(self) -> usize {
        match self {
            Edition::One => 256,
            Edition::Two => 384,
        }
    }

    /// The first edition whose sheets may have so many sites, or else the last.
    #[must_use]
    pub fn with_sites(sites: usize) -> Edition {
        if sites <= Edition::One.sites() {
            Edition::One
        } else {
            Edition::Two
        }
    }

    /// The edition that line 1 of a sheet tells, if it is a heading.
    #[must_use]
    pub fn told(sheet: &[u8]) -> Option<Edition> {
        let line = sheet.split(|&byte| byte == b'\n').next();
        let mut editions = Edition::ALL.into_iter();
        editions.find(|edition| line == Some(edition.heading()))
    }

    /// The same sheet with the heading of this edition, if its own line 1 is a heading.
    #[must_use]
    pub fn head(self, sheet: &[u8]) -> Option<Vec<u8>> {
        let told = Edition::told(sheet)?;
        Some([self.heading(), &sheet[told.heading().len()..]].concat())
    }
}
