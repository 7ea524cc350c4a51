//! The lines of a printed report, their fields and numbers.

/// The lines of a report, taken one by one.
pub struct Lines<'report> {
    /// What is not taken yet.
    pub rest: &'report [u8],
}

impl<'report> Lines<'report> {
    /// The fields of the next line after its first, which must be `letter`.
    ///
    /// # Errors
    ///
    /// Which line is missing, if the next one is another.
    pub fn next<const COUNT: usize>(
        &mut self,
        letter: &str,
    ) -> Result<[&'report [u8]; COUNT], String> {
        let wrong = || format!("a line {letter} of {COUNT} fields is missing");
        let length = self
            .rest
            .iter()
            .position(|&byte| byte == b'\n')
            .ok_or_else(wrong)?;
        let (line, rest) = self.rest.split_at(length);
        let mut fields = line.split(|&byte| byte == b'\t');
        if fields.next() != Some(letter.as_bytes()) {
            return Err(wrong());
        }
        let fields: Vec<&[u8]> = fields.collect();
        self.rest = &rest[1..];
        fields.try_into().map_err(|_| wrong())
    }

    /// Whether the next line has `letter` as its first of several fields.
    #[must_use]
    pub fn is_next(&self, letter: &str) -> bool {
        let rest = self.rest.strip_prefix(letter.as_bytes());
        rest.is_some_and(|rest| rest.starts_with(b"\t"))
    }

    /// The fields of the next lines with `letter`, as many as there are.
    ///
    /// # Errors
    ///
    /// If one of them has another number of fields.
    pub fn all<const COUNT: usize>(
        &mut self,
        letter: &str,
    ) -> Result<Vec<[&'report [u8]; COUNT]>, String> {
        let mut lines = Vec::new();
        while self.is_next(letter) {
            lines.push(self.next(letter)?);
        }
        Ok(lines)
    }
}

/// Reads a number written without a leading zero.
#[must_use]
pub fn number(text: &[u8]) -> Option<u64> {
    let is_canonical = text == b"0" || text.first().is_some_and(|&digit| digit != b'0');
    if !is_canonical || !text.iter().all(u8::is_ascii_digit) {
        return None;
    }
    std::str::from_utf8(text).ok()?.parse().ok()
}

/// Reads a printed number.
///
/// # Errors
///
/// If it is written wrongly.
pub fn read(text: &[u8]) -> Result<u64, String> {
    number(text).ok_or("a number is written wrongly".to_string())
}
