//! Which sheets are about names in either case: read by bytes, they would have another answer.

use std::collections::HashSet;

/// Whether names read by bytes would lead to another answer than that of both planners: the refusal
/// with its line, or none.
pub fn matters(sheet: &[u8], refusal: Option<(u8, u32)>) -> bool {
    let (number, last_line) = match refusal {
        Some((number, line)) if line > 0 => (number, line as usize),
        _ => (0, usize::MAX),
    };
    let mut given: HashSet<&[u8]> = HashSet::new();
    let lines = sheet.split(|&byte| byte == b'\n').zip(1..=last_line);
    for (line, place) in lines.skip(1) {
        let fields: Vec<&[u8]> = line.split(|&byte| byte == b'\t').collect();
        // Refusals other than 5 and 7 come before names are looked up, or would stay.
        if place == last_line && number != 5 && number != 7 {
            return false;
        }
        match fields[..] {
            [b"N" | b"T", name] if place == last_line => return !given.contains(name),
            [b"N" | b"T", name] => _ = given.insert(name),
            [b"L", first, second, ..] if !given.contains(first) || !given.contains(second) => {
                return true;
            }
            _ => (),
        }
    }
    false
}

#[cfg(test)]
mod tests {
    use super::matters;

    #[test]
    fn by_the_first_line_that_differs() {
        for (lines, refusal, due) in [
            ("N a\nN b\nL a b 1\n", None, false),
            ("N a\nN b\nL A b 1\n", None, true),
            ("N a\nN b\nL a B 1\n", Some((9, 0)), true),
            ("N a\nN b\n", Some((8, 0)), false),
            ("N a\nN a\nL A a 1\n", Some((5, 3)), false),
            ("N a\nN A\n", Some((5, 3)), true),
            ("T a\nN A\n", Some((5, 3)), true),
            ("N a\nT A\n", Some((5, 3)), true),
            ("T a\nT b\nL A b 1\n", None, true),
            ("T a\nT b\nL a b 1\n", None, false),
            ("N a\nL a a 1\n", Some((7, 3)), false),
            ("N a\nL a A 1\n", Some((7, 3)), true),
            ("N a\nL q A 1\n", Some((6, 3)), false),
            ("N a\nL a A 1000001\n", Some((3, 3)), false),
            ("N a\nN b\nL A b 1\nN\n", Some((10, 5)), true),
            ("N a\nN b\nL a b 1 1\n", None, false),
            ("N a\nN b\nL A b 1 1\n", None, true),
            ("N a\nN b\nL A b 1 2\n", Some((13, 4)), false),
            ("N a\nL a A 1 1\n", Some((7, 3)), true),
            ("N a\nN b\nL a b 1\nN\nL A b 1\n", Some((10, 5)), false),
        ] {
            let sheet = format!("network 1\n{lines}").replace(' ', "\t");
            assert_eq!(matters(sheet.as_bytes(), refusal), due, "{lines:?}");
        }
    }
}
