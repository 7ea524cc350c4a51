//! Sheets under the headings of both editions: but for the limits they are read alike.

use crate::compare::{Answer, Planners};
use second::REPORT_BYTES;
use sheets::Edition;

/// The number of lines of sites.
pub fn site_lines(sheet: &[u8]) -> usize {
    let lines = sheet.split(|&byte| byte == b'\n');
    let site_lines = lines.filter(|line| line.starts_with(b"N\t") || line.starts_with(b"T\t"));
    site_lines.count()
}

/// Whether a sheet is within the limits of edition 1, whatever its heading.
fn is_within_first(sheet: &[u8]) -> bool {
    sheet.len() <= Edition::One.bytes() && site_lines(sheet) <= Edition::One.sites()
}

/// Compares what both planners answer in halves on a sheet and on the same under the heading of the other
/// edition; says whether there is such a one that must be answered alike.
pub fn compare(planners: &mut Planners, sheet: &[u8]) -> Result<bool, String> {
    let others = Edition::ALL.map(|edition| edition.head(sheet));
    let [Some(first), Some(second)] = others else {
        return Ok(false);
    };
    if !is_within_first(sheet) {
        return Ok(false);
    }
    let mut answer = |sheet: &[u8]| match planners.plan(sheet, REPORT_BYTES)? {
        Answer::Report(report) => Ok::<_, String>(Ok(report.to_vec())),
        Answer::Refused(number, line) => Ok(Err((number, line))),
    };
    if answer(&first)? != answer(&second)? {
        return Err("another answer under the heading of the other edition".to_string());
    }
    Ok(true)
}

#[cfg(test)]
mod tests {
    use super::is_within_first;
    use sheets::Edition;
    use sheets::tried::star;

    #[test]
    fn limits_of_edition_1() {
        let [first, second] = Edition::ALL.map(star);
        assert!(is_within_first(&first));
        assert!(!is_within_first(&second));
        assert!(!is_within_first(&[&first[..], b"N\tnew\n"].concat()));
        assert!(is_within_first(&[b'\n'; 16_384]));
        assert!(!is_within_first(&[b'\n'; 16_385]));
    }
}
