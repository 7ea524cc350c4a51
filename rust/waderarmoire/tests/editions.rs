//! The proved library on sheets at the limits of both editions, against what is due by the words of the card.

use sheets::cases::Due;
use sheets::headings;
use waderarmoire::{REPORT_BYTES, Refusal, SITES, order, plan, whole};

/// What the library answers in halves; on a refusal the buffer must keep its values, and the report in whole
/// circuits and the order are refused alike.
fn answer(sheet: &[u8]) -> Due {
    let mut buffer = [0xee; REPORT_BYTES];
    let refusal = match plan(sheet, &mut buffer) {
        Ok(report) => return Due::Report(report.to_vec()),
        Err(refusal) => refusal,
    };
    assert_eq!(whole(sheet, &mut buffer), Err(refusal));
    assert_eq!(order(sheet, &mut [0; SITES]), Err(refusal));
    assert!(buffer.iter().all(|&byte| byte == 0xee));
    let Refusal { number, line } = refusal;
    Due::Refused(number, line)
}

#[test]
fn every_heading_and_length() {
    let count = headings::every_sheet(|sheet, due| {
        let first = String::from_utf8_lossy(&sheet[..sheet.len().min(40)]);
        assert_eq!(answer(sheet), *due, "{} bytes, {first:?}", sheet.len());
        Ok::<(), ()>(())
    });
    assert!(count.is_ok());
}

#[test]
fn every_number_of_sites_at_the_limits() {
    let count = headings::every_tree(|network, sheet, refusal| {
        let sites = network.names.len();
        match (answer(sheet), refusal) {
            (Due::Report(report), None) => {
                let lines = report.split(|&byte| byte == b'\n');
                let site_lines = lines.filter(|line| line.starts_with(b"N\t"));
                assert_eq!(site_lines.count(), sites);
            }
            (Due::Refused(number, line), Some(due)) => assert_eq!((number, line), due),
            (_, due) => panic!("{sites} sites, where {due:?} is due"),
        }
        Ok::<(), ()>(())
    });
    assert!(count.is_ok());
}
