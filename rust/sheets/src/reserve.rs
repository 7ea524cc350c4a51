//! Reserves: small sheets of two sites over a few numbers, with what is due by the words of the card.

use crate::SIZE;
use crate::cases::Due;
use crate::tried::tabbed;

/// Names on link lines: those of the two sites, one of them in the other case, one that is not given,
/// one that is a bare number and one that is bad.
pub(crate) const NAMES: [&str; 6] = ["a", "b", "B", "q", "7", "-"];

/// Numbers around every border, and texts that are no numbers.
pub(crate) const NUMBERS: [&str; 24] = [
    "0",
    "1",
    "2",
    "3",
    "9",
    "10",
    "99",
    "100",
    "999999",
    "1000000",
    "1000001",
    "9999999",
    "10000000",
    "4294967297",
    "4294967298",
    "18446744073709551617",
    "",
    "00",
    "01",
    "010",
    "1~",
    "-1",
    "1x",
    "10000000x",
];

/// Calls `see` with sheets of the sites `a` and `b` and a link line, and what is due of each; returns
/// how many.
///
/// The line has two of the names, one of the numbers as its size and one or none as its reserve, all
/// taken in all ways; it is the only one, or follows a link between the sites. Lines with all pairs of
/// numbers and a sixth field come on top.
///
/// # Errors
///
/// The first that `see` returns.
pub fn every_sheet<Failure>(
    mut see: impl FnMut(&[u8], &Due) -> Result<(), Failure>,
) -> Result<usize, Failure> {
    let mut count = 0;
    let mut try_line = |names: [&str; 2], numbers: &[&str], is_joined| {
        count += 1;
        let due = due(names, numbers, is_joined);
        see(&sheet(names, numbers, is_joined), &due)
    };
    for size in NUMBERS {
        for names in NAMES
            .map(|first| NAMES.map(|second| [first, second]))
            .concat()
        {
            for is_joined in [false, true] {
                try_line(names, &[size], is_joined)?;
                for reserve in NUMBERS {
                    try_line(names, &[size, reserve], is_joined)?;
                }
            }
        }
        for reserve in NUMBERS {
            for sixth in ["", "0", "1"] {
                try_line(["a", "b"], &[size, reserve, sixth], false)?;
            }
        }
    }
    Ok(count)
}

/// The sheet, with a link between its sites above the line or without.
fn sheet(names: [&str; 2], numbers: &[&str], is_joined: bool) -> Vec<u8> {
    let above = if is_joined { "L a b 1\n" } else { "" };
    let line = format!("L {} {}", names.join(" "), numbers.join(" "));
    tabbed(&format!("network 1\nN a\nN b\n{above}{line}\n"))
}

/// What is due of it: the causes one after the other.
fn due(names: [&str; 2], numbers: &[&str], is_joined: bool) -> Due {
    let refused = |number| Due::Refused(number, if is_joined { 5 } else { 4 });
    if numbers.len() > 2 {
        return refused(10);
    }
    if names.contains(&"-") {
        return refused(11);
    }
    if names.contains(&"7") {
        return refused(17);
    }
    let numbers = numbers.iter().map(|text| value(text));
    let Some(numbers) = numbers.collect::<Option<Vec<u128>>>() else {
        return refused(12);
    };
    if numbers.iter().any(|&number| number > u128::from(SIZE)) {
        return refused(3);
    }
    let (size, reserve) = (numbers[0], numbers.get(1).copied().unwrap_or(0));
    let Some(usable) = size.checked_sub(reserve) else {
        return refused(13);
    };
    if names.contains(&"q") {
        return refused(6);
    }
    let [from, to] = names.map(str::to_ascii_lowercase);
    if from == to || is_joined {
        return refused(7);
    }
    Due::of_two_sites(["a", "b"], [&from, &to], usable as u32)
}

/// The value of a number that is well written: in decimal, without a leading zero.
pub(crate) fn value(text: &str) -> Option<u128> {
    let is_decimal = !text.is_empty() && text.chars().all(|it| it.is_ascii_digit());
    let has_leading_zero = text.starts_with('0') && text != "0";
    (is_decimal && !has_leading_zero).then(|| text.parse().ok())?
}
