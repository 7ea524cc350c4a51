//! Bare numbers as names: the line of a sheet that is refused for one, found without either planner.

use sheets::bare::{fault_of_names, is_bare};

/// What stands in the place of the names of a line, if it has the letter of a site or a link.
fn names<'line>(fields: &[&'line [u8]]) -> Vec<&'line [u8]> {
    let names = match fields[0] {
        b"N" | b"T" => 1..2,
        b"L" => 1..3,
        _ => 0..0,
    };
    let places = fields.iter().enumerate();
    let names = places.filter(|(place, _)| names.contains(place));
    names.map(|(_, name)| *name).collect()
}

fn fields(line: &[u8]) -> Vec<&[u8]> {
    line.split(|&byte| byte == b'\t').collect()
}

/// Whether a line of a site or a link has a bare number in the place of a name, whatever else is wrong with it.
pub fn is_on(line: &[u8]) -> bool {
    names(&fields(line)).iter().any(|name| is_bare(name))
}

/// Which names of a line are bare numbers.
#[derive(Clone, Copy, Debug, PartialEq, Eq)]
pub enum Bare {
    /// That of a site.
    Site,
    /// Of those of a link the first, the second, or both.
    First,
    Second,
    Both,
}

/// Which names of a line are bare numbers, if the line gets 17: it has as many fields as it should, and all its
/// names have the form of one.
fn due(line: &[u8]) -> Option<Bare> {
    let fields = fields(line);
    let names = match (fields[0], fields.len()) {
        (b"N" | b"T", 2) | (b"L", 4 | 5) => names(&fields),
        _ => return None,
    };
    if fault_of_names(&names) != Some(17) {
        return None;
    }
    Some(match names[..] {
        [_] => Bare::Site,
        [_, second] if !is_bare(second) => Bare::First,
        [first, _] if !is_bare(first) => Bare::Second,
        _ => Bare::Both,
    })
}

/// Checks what both planners answer on a sheet, the refusal with its line or none: 17 is told of the first line
/// that gets it, unless a fault comes before, and of no other. Returns which names of that line are bare numbers.
pub fn check(sheet: &[u8], refusal: Option<(u8, u32)>) -> Result<Option<Bare>, String> {
    if refusal == Some((1, 0)) {
        // It is not read.
        return Ok(None);
    }
    let lines = sheet.split_inclusive(|&byte| byte == b'\n').zip(1..);
    let lines = lines.skip(1);
    let mut ended = lines.filter_map(|(line, number)| Some((line.strip_suffix(b"\n")?, number)));
    let first = ended.find_map(|(line, number)| Some((number, due(line)?)));
    let last = refusal.map_or(0, |(_, line)| line);
    let due = first.filter(|&(line, _)| last == 0 || line <= last);
    let told = refusal.filter(|&(number, _)| number == 17);
    if told.map(|(_, line)| line) != due.map(|(line, _)| line) {
        return Err(format!(
            "both planners answer {refusal:?} where {due:?} is due"
        ));
    }
    Ok(due.map(|(_, bare)| bare))
}

#[cfg(test)]
mod tests {
    use super::{Bare, check, is_on};

    #[test]
    fn the_first_line_that_gets_it() {
        for (lines, refusal, due) in [
            ("N a\nN b\nL a b 1\n", None, Ok(None)),
            ("N a\nN 40\n", Some((17, 3)), Ok(Some(Bare::Site))),
            ("T 007\nP\n", Some((17, 2)), Ok(Some(Bare::Site))),
            ("N a\nL 4 a 1\n", Some((17, 3)), Ok(Some(Bare::First))),
            ("N a\nL a 4 07\n", Some((17, 3)), Ok(Some(Bare::Second))),
            ("N a\nL 4 4 1 2\n", Some((17, 3)), Ok(Some(Bare::Both))),
            ("N a\nL 4 b_ 1\n", Some((11, 3)), Ok(None)),
            ("N a\nL 4 a\nN 4\n", Some((10, 3)), Ok(None)),
            ("N a\nN a\nN 4\n", Some((5, 3)), Ok(None)),
            ("N a\nN 4", Some((2, 3)), Ok(None)),
            ("N 4\n", Some((1, 0)), Ok(None)),
            ("N 4a\nL 4a 4b 1\n", Some((6, 3)), Ok(None)),
            ("N a\nL 4 a 1\n", Some((6, 3)), Err(())),
            ("N a\nL 4 a 07\n", Some((12, 3)), Err(())),
            ("N 4\nN a\nL 4 a 1\n", None, Err(())),
            ("N 4\nN a\n", Some((8, 0)), Err(())),
            ("N 4\nN a\nN a\n", Some((5, 4)), Err(())),
            ("N 4a\n", Some((17, 2)), Err(())),
            ("N 4\nN 5\n", Some((17, 3)), Err(())),
            ("N 4-\n", Some((17, 2)), Err(())),
        ] {
            let sheet = format!("network 1\n{lines}").replace(' ', "\t");
            let checked = check(sheet.as_bytes(), refusal).map_err(|_| ());
            assert_eq!(checked, due, "{lines:?}, {refusal:?}");
        }
    }

    #[test]
    fn lines_with_bare_numbers() {
        for line in ["N 4", "T 0 a", "L 4 a 1", "L a 4", "L a- 4 1 1 1"] {
            assert!(is_on(line.replace(' ', "\t").as_bytes()), "{line}");
        }
        for line in [
            "", "N", "N a 4", "L a b 4", "P 4 4 4", "N 4a", "L a", "L  a 1",
        ] {
            assert!(!is_on(line.replace(' ', "\t").as_bytes()), "{line}");
        }
    }
}
