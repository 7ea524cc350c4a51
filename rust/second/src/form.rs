//! What is off in a line of the wrong form.
//!
//! Lines are read by `network` as if they were right. One that is not is looked at here once
//! more, slowly, to tell the first of its faults in the order 2, 10, 11, 17, 12.

use crate::names::{Name, Place};
use crate::planted::{Error, planted};
use std::ops::{Range, RangeInclusive};

const LETTER_OR_ENDING: u8 = 2;
const FIELD_COUNT: u8 = 10;
const BAD_NAME: u8 = 11;
const BAD_NUMBER: u8 = 12;
const BARE_NUMBER: u8 = 17;

/// Where the names of a line with a letter stand among its fields, and how many fields it may have.
/// What stands behind the names are numbers: of a link in a range sheet just two.
fn layout(letter: &[u8], has_ranges: bool) -> Option<(Range<usize>, RangeInclusive<usize>)> {
    match letter {
        b"T" if planted(Error::MarkRefused) => None,
        b"N" | b"T" => Some((1..2, 2..=2)),
        b"L" if has_ranges => {
            let fewest = if planted(Error::OneSizeAccepted) {
                4
            } else {
                5
            };
            let most = if planted(Error::RangeReserve) { 6 } else { 5 };
            Some((1..3, fewest..=most))
        }
        b"L" => Some((1..3, 4..=5)),
        _ => None,
    }
}

/// The number of the fault of form in the line at the start of `rest`, of a range sheet or another, which must
/// have one.
#[cold]
pub fn fault(rest: &[u8], has_ranges: bool) -> u8 {
    let Some(length) = rest.iter().position(|&byte| byte == b'\n') else {
        return unended(rest);
    };
    let fields: Vec<&[u8]> = rest[..length].split(|&byte| byte == b'\t').collect();
    let Some((names, counts)) = layout(fields[0], has_ranges) else {
        let is_planted = planted(Error::CountBeforeLetter) && ![2, 4, 5].contains(&fields.len());
        return if is_planted {
            FIELD_COUNT
        } else {
            LETTER_OR_ENDING
        };
    };
    if planted(Error::NamesBeforeCount) {
        let mut names = fields.iter().take(names.end).skip(names.start);
        if !names.all(|name| Name::of_field(name).is_some()) {
            return BAD_NAME;
        }
    }
    if !counts.contains(&fields.len()) {
        return FIELD_COUNT;
    }
    let place = match fields[0] {
        b"L" => Place::Link,
        _ => |_| Place::Site,
    };
    let numbers = &fields[names.end..];
    let number = fault_of_fields(&fields[names], numbers, place);
    if planted(Error::LeadingZeroAsLarge)
        && number == BAD_NUMBER
        && numbers.iter().any(|number| has_leading_zero(number))
    {
        return 3;
    }
    number
}

/// The number of the first fault in the names and the numbers of a line, which must have one: all names
/// are looked at for 11, then all for 17, and then the numbers for 12.
#[cold]
pub fn fault_of_fields(names: &[&[u8]], numbers: &[&[u8]], place: fn(usize) -> Place) -> u8 {
    let names: Vec<Option<Name>> = names.iter().map(|name| Name::of_field(name)).collect();
    let is_bare =
        |(nth, name): (usize, &Option<Name>)| name.is_some_and(|it| it.is_bare(place(nth)));
    let has_bare = names.iter().enumerate().any(is_bare);
    if planted(Error::BareBeforeBad) && has_bare {
        return BARE_NUMBER;
    }
    if names.contains(&None) {
        let is_planted = planted(Error::SecondNameAsNumber) && names[0].is_some();
        return if is_planted { BAD_NUMBER } else { BAD_NAME };
    }
    let is_late = planted(Error::BareAfterNumber) && !numbers.iter().all(|it| is_number(it));
    if has_bare && !is_late {
        return BARE_NUMBER;
    }
    // No other fault of form is left.
    BAD_NUMBER
}

fn has_leading_zero(number: &[u8]) -> bool {
    number.len() > 1 && number.starts_with(b"0")
}

/// Whether a number is well written, for an error that can be planted.
fn is_number(field: &[u8]) -> bool {
    !field.is_empty() && field.iter().all(u8::is_ascii_digit) && !has_leading_zero(field)
}

/// The fault of a line that no byte 10 ends, whatever else is wrong with it.
fn unended(line: &[u8]) -> u8 {
    let fields: Vec<&[u8]> = line.split(|&byte| byte == b'\t').collect();
    match layout(fields[0], false) {
        Some((_, counts)) if planted(Error::UnendedAsCount) && !counts.contains(&fields.len()) => {
            FIELD_COUNT
        }
        _ => LETTER_OR_ENDING,
    }
}

#[cfg(test)]
mod tests {
    use crate::{Outcome, plan};

    /// The fault of form of a line that byte 10 ends, by the words of the cards; none has 0.
    fn fault_by_the_card(line: &str) -> u8 {
        let is_name = |name: &str| {
            !name.is_empty()
                && name.len() <= 12
                && name.chars().all(|it| it.is_ascii_alphanumeric())
        };
        let is_bare = |text: &str| !text.is_empty() && text.chars().all(|it| it.is_ascii_digit());
        let is_number =
            |number: &str| is_bare(number) && (number == "0" || !number.starts_with('0'));
        match line.split('\t').collect::<Vec<_>>()[..] {
            ["N" | "T", name] if !is_name(name) => 11,
            ["N" | "T", name] if is_bare(name) => 17,
            ["L", first, second, _] | ["L", first, second, _, _]
                if !is_name(first) || !is_name(second) =>
            {
                11
            }
            ["L", first, second, _] | ["L", first, second, _, _]
                if is_bare(first) || is_bare(second) =>
            {
                17
            }
            ["L", _, _, size] if !is_number(size) => 12,
            ["L", _, _, size, reserve] if !is_number(size) || !is_number(reserve) => 12,
            ["N" | "T", _] | ["L", _, _, _] | ["L", _, _, _, _] => 0,
            ["N" | "T" | "L", ..] => 10,
            _ => 2,
        }
    }

    /// Whether the numbers of a link line without a fault of form get 3 or 13.
    fn fault_of_sizes(line: &str) -> Option<u8> {
        let numbers = line.split('\t').skip(3);
        let numbers: Vec<u64> = numbers.filter_map(|number| number.parse().ok()).collect();
        if numbers.iter().any(|&number| number > 1_000_000) {
            return Some(3);
        }
        (numbers.get(1) > Some(&numbers[0])).then_some(13)
    }

    /// Compares the planner on one line, ended and not, with what the card says.
    fn check(line: &str) {
        let answer = |ending: &str| {
            let sheet = format!("network\t1\n{line}{ending}");
            match plan(sheet.as_bytes(), &mut []) {
                Outcome::Refused { number, line } => (number, line),
                Outcome::Report { .. } => panic!("one line makes no tree"),
            }
        };
        let due = match fault_by_the_card(line) {
            // A site alone is not enough, and no name is given above.
            0 if !line.starts_with('L') => (8, 0),
            0 => (fault_of_sizes(line).unwrap_or(6), 2),
            number => (number, 2),
        };
        assert_eq!(answer("\n"), due, "{line:?}");
        if !line.is_empty() {
            assert_eq!(answer(""), (2, 2), "{line:?} without byte 10");
        }
    }

    /// Calls `see` with every text of at most `most` of the pieces, put behind `text`.
    fn every_text(text: &mut String, pieces: &[&str], most: usize, see: &mut impl FnMut(&str)) {
        see(text);
        if most > 0 {
            for piece in pieces {
                let length = text.len();
                text.push_str(piece);
                every_text(text, pieces, most - 1, see);
                text.truncate(length);
            }
        }
    }

    #[test]
    fn every_short_line() {
        every_text(
            &mut String::new(),
            &["N", "T", "L", "\t", "0", "7", "a", "-", " "],
            5,
            &mut check,
        );
    }

    #[test]
    fn every_line_of_fields() {
        let fields = [
            "",
            "N",
            "L",
            "n",
            "a",
            "0",
            "07",
            "7",
            "10000000",
            "a b",
            "a\r",
            "7\0",
            "é",
            "abcdefghijkl",
            "abcdefghijklm",
            "00000000",
            "0000000000000",
            "network",
        ];
        let pieces = fields.map(|field| format!("\t{field}"));
        let pieces: Vec<&str> = pieces.iter().map(String::as_str).collect();
        for letter in ["N", "T", "L"] {
            every_text(&mut letter.to_string(), &pieces, 4, &mut check);
        }
        for names in ["L\ta\tb", "L\ta b\tb", "L\ta\tabcdefghijklm"] {
            every_text(&mut names.to_string(), &pieces, 3, &mut check);
        }
        for letter in ["", "n", "t", " N", "N ", "NN", "T ", "NT", "network", "é"] {
            every_text(&mut letter.to_string(), &pieces, 3, &mut check);
        }
    }
}
