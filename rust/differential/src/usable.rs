//! Sheets with reserves, beside the same sheets with usable sizes in the place of size and reserve:
//! both planners must answer alike on the two.

use crate::compare::{Answer, Planners, Reports};
use crate::printed::usable_size;
use second::REPORT_BYTES;

/// An accepted sheet with the usable size of each link in the place of its size and reserve, if it has
/// a reserve.
fn without_reserves(sheet: &[u8]) -> Option<Vec<u8>> {
    let mut has_reserve = false;
    let lines = sheet.split(|&byte| byte == b'\n').map(|line| {
        let fields: Vec<&[u8]> = line.split(|&byte| byte == b'\t').collect();
        match fields[..] {
            [b"L", first, second, size, reserve] => {
                has_reserve = true;
                let usable = usable_size(&[size, reserve])?.to_string();
                Some([b"L", first, second, usable.as_bytes()].join(&b'\t'))
            }
            _ => Some(line.to_vec()),
        }
    });
    let lines: Vec<Vec<u8>> = lines.collect::<Option<_>>()?;
    has_reserve.then(|| lines.join(&b'\n'))
}

/// Compares the reports on an accepted sheet with those on the same sheet without reserves, byte for
/// byte; says whether there is a reserve.
///
/// In whole circuits each planner is compared with itself, as the two may choose other loads.
pub fn compare(planners: &mut Planners, sheet: &[u8]) -> Result<bool, String> {
    let Some(without) = without_reserves(sheet) else {
        return Ok(false);
    };
    let [one, other] = [reports(planners, sheet)?, reports(planners, &without)?];
    for (which, (one, other)) in REPORTS.iter().zip(one.iter().zip(&other)) {
        if one != other {
            return Err(format!(
                "{which}: another report on the usable sizes in the place of sizes and reserves"
            ));
        }
    }
    Ok(true)
}

const REPORTS: [&str; 3] = [
    "plan",
    "whole, the proved planner",
    "whole, the second planner",
];

/// The reports on a sheet: of both planners in halves, of each in whole circuits.
fn reports(planners: &mut Planners, sheet: &[u8]) -> Result<[Vec<u8>; 3], String> {
    let refused = "a sheet with usable sizes, or with reserves, is refused".to_string();
    let Answer::Report(plan) = planners.plan(sheet, REPORT_BYTES)? else {
        return Err(refused);
    };
    let plan = plan.to_vec();
    let Answer::Report(Reports { proved, second }) = planners.whole(sheet, REPORT_BYTES)? else {
        return Err(refused);
    };
    Ok([plan, proved.to_vec(), second.to_vec()])
}

#[cfg(test)]
mod tests {
    use super::without_reserves;

    #[test]
    fn sheets_without_reserves() {
        for (lines, due) in [
            ("N a\nN b\nL a b 5\n", None),
            ("N a\nN b\nL a b 5 0\n", Some("N a\nN b\nL a b 5\n")),
            (
                "N a\nN b\nL a b 5 5\nN c\nL a C 7 2\n",
                Some("N a\nN b\nL a b 0\nN c\nL a C 5\n"),
            ),
        ] {
            let sheet = |lines: &str| format!("network 1\n{lines}").replace(' ', "\t");
            let due = due.map(|lines| sheet(lines).into_bytes());
            assert_eq!(without_reserves(sheet(lines).as_bytes()), due);
        }
    }
}
