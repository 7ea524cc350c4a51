//! Range sheets, against answers written out by hand and those due by the words of the card.

use second::{Outcome, REPORT_BYTES, plan, ranges};
use sheets::cases::Due;
use sheets::ranges::TRIED;
use sheets::span::{due, read};
use sheets::{Layout, Random, surveys};

/// What is answered with a buffer of so many bytes, of which nothing but the report may change.
fn answered(sheet: &[u8], length: usize) -> Due {
    let mut buffer = vec![0xee; length];
    let (due, length) = match ranges(sheet, &mut buffer) {
        Outcome::Report { length } => (Due::Report(buffer[..length].to_vec()), length),
        Outcome::Refused { number, line } => (Due::Refused(number, line), 0),
    };
    assert!(buffer[length..].iter().all(|&byte| byte == 0xee));
    due
}

#[test]
fn answers_written_by_hand() {
    for tried in &TRIED {
        let text = match answered(&tried.sheet(), REPORT_BYTES) {
            Due::Report(report) => report,
            Due::Refused(number, line) => format!("refused\t{number}\t{line}\n").into_bytes(),
        };
        let due = tried.text();
        let [text, due] = [&text, &due].map(|text| String::from_utf8_lossy(text));
        assert_eq!(text, due, "{}", tried.title);
    }
}

#[test]
fn random_sheets() {
    for index in 0..4_000 {
        let sheet = surveys::sheet(7, index);
        let due = due(&sheet);
        assert_eq!(answered(&sheet, REPORT_BYTES), due, "sheet {index}");
        if let Due::Report(report) = &due {
            assert_eq!(answered(&sheet, report.len()), due, "sheet {index}");
            let short = answered(&sheet, report.len() - 1);
            assert_eq!(short, Due::Refused(9, 0), "sheet {index}");
        }
    }
}

/// The total and the trimmed sizes that a report headed `plan` prints.
fn planned(sheet: &[u8]) -> (u64, Vec<u64>) {
    let mut buffer = [0; REPORT_BYTES];
    let Outcome::Report { length } = plan(sheet, &mut buffer) else {
        panic!("a tree is refused");
    };
    let report = String::from_utf8_lossy(&buffer[..length]);
    let field = |line: &str, place: usize| line.split('\t').nth(place).unwrap().parse().unwrap();
    let links = report.lines().filter(|line| line.starts_with("L\t"));
    let sizes = links.map(|line| field(line, 4)).collect();
    (field(report.lines().next().unwrap(), 1), sizes)
}

/// For random choices of sizes in the ranges, total and trimmed sizes of the plan lie within those printed; with the low
/// and with the high sizes they are the least and the greatest.
#[test]
fn plans_within_the_ranges() {
    let random = &mut Random::new(1);
    for index in 0..2_000 {
        let sheet = surveys::sheet(8, 2 * index);
        let Ok(ranges) = read(&sheet) else {
            continue;
        };
        let Due::Report(report) = answered(&sheet, REPORT_BYTES) else {
            panic!("sheet {index} is refused");
        };
        let report = String::from_utf8(report).unwrap();
        let numbers = |line: &str| {
            line.split('\t')
                .skip(1)
                .filter_map(|it| it.parse().ok())
                .collect()
        };
        let spans: Vec<Vec<u64>> = report.lines().map(numbers).collect();
        let span = |line: usize| &spans[line][spans[line].len() - 2..];
        let lows = &ranges.low.sizes;
        let choice = lows.iter().zip(&ranges.highs);
        let any = choice.map(|(&low, &high)| random.between(low as usize, high as usize) as u32);
        let any: Vec<u32> = any.collect();
        for (choice, end) in [(lows, Some(0)), (&ranges.highs, Some(1)), (&any, None)] {
            let network = ranges.with_sizes(choice);
            let (total, sizes) = planned(&network.sheet(Layout::SitesFirst, &mut Random::new(0)));
            for (line, number) in [total].into_iter().chain(sizes).enumerate() {
                assert!(
                    span(line)[0] <= number && number <= span(line)[1],
                    "sheet {index}"
                );
                assert!(
                    end.is_none_or(|end: usize| span(line)[end] == number),
                    "sheet {index}"
                );
            }
        }
    }
}
