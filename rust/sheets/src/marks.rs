//! Marks: small sheets with site lines of either letter, with what is due by the words of the card.

use crate::bare::fault_of_names;
use crate::cases::Due;
use crate::tried::tabbed;

/// First fields of a site line: the two letters, and such as look much like them.
const LETTERS: [&str; 14] = [
    "N", "T", "n", "t", "NT", "TN", "TT", "T~", "~T", "", "S", "U", "X", "network",
];

/// What stands behind the letter.
const FIELDS: [&[&str]; 28] = [
    &["b"],
    &["B"],
    &["a"],
    &["A"],
    &["c"],
    &["T"],
    &["0"],
    &["40"],
    &["007"],
    &["4a"],
    &["012345678901"],
    &["0123456789012"],
    &["abcdefghijkl"],
    &["abcdefghijklm"],
    &[""],
    &["-"],
    &["b~"],
    &["~b"],
    &["b\r"],
    &["é"],
    &["b", ""],
    &["b", "b"],
    &["-", "b"],
    &["40", "b"],
    &["", ""],
    &["a", "b", "1"],
    &["a", "b", "1", "1"],
    &[],
];

/// Calls `see` with sheets of the site `a`, marked or not, and another site line, and what is due of each;
/// returns how many.
///
/// The line has one of the letters and one of the lists of fields, in all ways. It is not ended, or ended
/// and alone, or one or two lines follow that link `a` and `b` or give a site.
///
/// # Errors
///
/// The first that `see` returns.
pub fn every_sheet<Failure>(
    mut see: impl FnMut(&[u8], &Due) -> Result<(), Failure>,
) -> Result<usize, Failure> {
    let mut count = 0;
    for first in ["N", "T"] {
        for letter in LETTERS {
            for fields in FIELDS {
                let line = [&[letter], fields].concat();
                for after in AFTER {
                    let text = format!("network 1\n{first} a\n{}{after}", line.join(" "));
                    see(&tabbed(&text), &due(&line, after))?;
                    count += 1;
                }
            }
        }
    }
    Ok(count)
}

/// What follows the line: nothing, its byte 10 alone, or lines after it.
const AFTER: [&str; 6] = [
    "",
    "\n",
    "\nL b A 3\n",
    "\nL a B 3\nN c\n",
    "\nT B\nL a b 3\n",
    "\nL b a 3 1\n",
];

/// What is due: the faults of the line one after the other, then what comes of the lines after it.
fn due(line: &[&str], after: &str) -> Due {
    let refused = |number| Due::Refused(number, 3);
    if line == [""] && after.is_empty() {
        // No byte, and so no line.
        return Due::Refused(8, 0);
    }
    if after.is_empty() || !["N", "T"].contains(&line[0]) {
        return refused(2);
    }
    let [_, name] = line else {
        return refused(10);
    };
    if let Some(number) = fault_of_names(&[name.as_bytes()]) {
        return refused(number);
    }
    if name.eq_ignore_ascii_case("a") {
        return refused(5);
    }
    let is_b = name.eq_ignore_ascii_case("b");
    match (after, is_b) {
        ("\nT B\nL a b 3\n", true) => Due::Refused(5, 4),
        // A site is left alone: that of the line, or c, or `a` too.
        ("\n", _) | ("\nL a B 3\nN c\n", true) | ("\nT B\nL a b 3\n", false) => Due::Refused(8, 0),
        (_, false) => Due::Refused(6, 4),
        ("\nL b A 3\n", true) => Due::of_two_sites(["a", name], [name, "a"], 3),
        (_, true) => Due::of_two_sites(["a", name], [name, "a"], 2),
    }
}
