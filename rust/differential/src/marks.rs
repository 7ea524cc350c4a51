//! Sheets with marks, beside the same sheets without: the order of work looks at no marks.

use crate::compare::{Answer, LIST_PLACES, Planners};
use crate::printed::Network;

/// A sheet with the letter `N` on the lines of marked sites, if there are any.
fn without_marks(sheet: &[u8]) -> Option<Vec<u8>> {
    let mut has_mark = false;
    let lines = sheet.split(|&byte| byte == b'\n');
    let lines = lines.map(|line| match line.strip_prefix(b"T\t") {
        Some(name) => {
            has_mark = true;
            [b"N\t", name].concat()
        }
        None => line.to_vec(),
    });
    let lines: Vec<Vec<u8>> = lines.collect();
    has_mark.then(|| lines.join(&b'\n'))
}

/// Compares the order of an accepted sheet with that of the same sheet without marks; says whether
/// there is an end with more than one link.
pub fn compare(planners: &mut Planners, sheet: &[u8]) -> Result<bool, String> {
    let Some(without) = without_marks(sheet) else {
        return Ok(false);
    };
    let mut order = |sheet: &[u8]| match planners.order(sheet, LIST_PLACES)? {
        Answer::Report(order) => Ok(order.to_vec()),
        Answer::Refused(..) => Err("order: a sheet with marks, or without, is refused".to_string()),
    };
    if order(sheet)? != order(&without)? {
        return Err("order: another one on the same sheet without marks".to_string());
    }
    Ok(Network::read(sheet)?.has_inner_end())
}

#[cfg(test)]
mod tests {
    use super::without_marks;

    #[test]
    fn sheets_without_marks() {
        for (lines, due) in [
            ("N T\nN b\nL T b 5\n", None),
            ("N a\nT b\nL a b 5\n", Some("N a\nN b\nL a b 5\n")),
            ("T T\nT N\nL T n 5 5\n", Some("N T\nN N\nL T n 5 5\n")),
        ] {
            let sheet = |lines: &str| format!("network 1\n{lines}").replace(' ', "\t");
            let due = due.map(|lines| sheet(lines).into_bytes());
            assert_eq!(without_marks(sheet(lines).as_bytes()), due);
        }
    }
}
