//! Colours and lines, light and dark, and the widths of links.

use std::fmt::Write;

/// The colours of end sets, and that of the text upon them: those of Okabe and Ito, which people who do not see red
/// and green apart can tell.
const COLOURS: [(&str, &str); 7] = [
    ("#e69f00", "#000"),
    ("#56b4e9", "#000"),
    ("#009e73", "#000"),
    ("#cc79a7", "#000"),
    ("#0072b2", "#fff"),
    ("#f0e442", "#000"),
    ("#d55e00", "#000"),
];

/// How many colours there are.
pub const COUNT: usize = COLOURS.len();

const LIGHT: &str = "\
text{font-family:\"DejaVu Sans Mono\",Menlo,Consolas,\"Liberation Mono\",monospace;fill:#1c2430}
text.muted{fill:#5a6673}
text.strong{font-weight:bold}
text.cut{font-weight:bold;fill:#a84300}
.page{fill:#fff}
.site{fill:#f4f6f8;stroke:#77838f;stroke-width:1.2}
.done{fill:#fff;stroke:#b3bcc5;stroke-width:1.2}
.taken{fill:#fde8d7;stroke:#d55e00;stroke-width:2.4}
.link{fill:none;stroke:#6b7987}
.link.none{stroke-dasharray:2 4}
.link.cut{stroke:#d55e00}
.room{fill:none;stroke:#d5dce3}
.arc{fill:none;stroke:#6b7987;stroke-opacity:.55}
.lead{fill:none;stroke:#77838f;stroke-dasharray:1 4}
.rule{fill:none;stroke:#ccd4dc}
.frame{fill:none;stroke:#dde3e8}
.grey{fill:#d3dae1}
text.halo{paint-order:stroke;stroke:#fff;stroke-width:4px;stroke-linejoin:round}
text.chip{fill:#000}
";

const DARK: &str = "\
text{fill:#e4e9ee}
text.muted{fill:#a0abb7}
text.cut{fill:#ff9d57}
.page{fill:#14181d}
.site{fill:#20272e;stroke:#8b97a3}
.done{fill:#14181d;stroke:#4c5661}
.taken{fill:#4a2a14;stroke:#ff9d57}
.link{stroke:#9aa7b4}
.link.cut{stroke:#ff9d57}
.room{stroke:#3b4650}
.arc{stroke:#9aa7b4}
.lead{stroke:#8b97a3}
.rule{stroke:#3b4650}
.frame{stroke:#2b333b}
.grey{fill:#8b97a3}
text.halo{stroke:#14181d}
text.chip{fill:#000}
";

/// The style of a page.
pub fn style() -> String {
    let mut style = LIGHT.to_string();
    for (number, (colour, text)) in COLOURS.iter().enumerate() {
        let _ = write!(
            style,
            ".c{number}{{fill:{colour}}}\n.t{number}{{fill:{colour};fill-opacity:.16}}\n\
             .room.r{number}{{stroke:{colour};stroke-opacity:.5}}\n"
        );
        if *text != "#000" {
            let _ = writeln!(style, "text.chip.on{number}{{fill:{text}}}");
        }
    }
    let _ = write!(style, "@media (prefers-color-scheme:dark){{\n{DARK}");
    for (number, (_, text)) in COLOURS.iter().enumerate() {
        if *text != "#000" {
            let _ = writeln!(style, "text.chip.on{number}{{fill:{text}}}");
        }
    }
    style.push_str("}\n");
    style
}

/// The width of the thinnest line of a link, and what a link of the largest size has more, in tenths.
const THINNEST: u64 = 15;
const MORE: u64 = 65;

/// The width of a link in tenths: it grows with the logarithm of the size, from 0 to the largest on the page.
pub fn width(size: u64, largest: u64) -> i32 {
    (THINNEST + MORE * logarithm(size) / logarithm(largest).max(1)) as i32
}

/// The logarithm to base 2 of a number and one, in 1,024ths; between powers of two along a straight line.
fn logarithm(number: u64) -> u64 {
    let whole = (number + 1).ilog2();
    let part = (((number + 1) << 10) >> whole) - (1 << 10);
    (u64::from(whole) << 10) + part
}

#[cfg(test)]
mod tests {
    use super::{logarithm, width};

    #[test]
    fn widths_grow_with_sizes() {
        for largest in [0, 1, 2, 10, 1_000_000] {
            let widths: Vec<i32> = (0..=largest).map(|size| width(size, largest)).collect();
            assert!(widths.is_sorted());
            assert_eq!(widths[0], 15);
            assert!(largest == 0 || widths[largest as usize] == 80);
        }
        assert_eq!([0, 1, 3, 5, 7].map(logarithm), [0, 1024, 2048, 2560, 3072]);
    }
}
