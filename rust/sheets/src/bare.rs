//! Bare numbers as names: small sheets and logs over many names, with what is due by the words of the card.

use crate::cases::Due;
use crate::logs::Case;
use crate::tree::letters;
use crate::tried::tabbed;
use crate::{Edition, Layout, Network, Random, Spelling};

/// Whether a field has the form of a name: 1 to 12 letters or digits.
#[must_use]
pub fn is_name(field: &[u8]) -> bool {
    (1..=12).contains(&field.len()) && field.iter().all(u8::is_ascii_alphanumeric)
}

/// Whether a field is a bare number: digits alone, with a leading zero or not.
#[must_use]
pub fn is_bare(field: &[u8]) -> bool {
    !field.is_empty() && field.iter().all(u8::is_ascii_digit)
}

/// The number of the fault of the names of a line, if there is one: all names are looked at for 11, then all
/// for 17.
#[must_use]
pub fn fault_of_names(names: &[&[u8]]) -> Option<u8> {
    if !names.iter().all(|name| is_name(name)) {
        return Some(11);
    }
    names.iter().any(|name| is_bare(name)).then_some(17)
}

/// A bare number of at most 12 digits, mostly a short one.
pub fn bare_number(random: &mut Random) -> Vec<u8> {
    let most = *random.pick(&[1, 2, 3, 12]);
    let digits: &[u8] = random.pick::<&[u8]>(&[b"0123456789", b"0123456789", b"09", b"0"]);
    letters(digits, random.between(1, most), random)
}

/// The names of the two sites of the sheets.
const SITES: [&str; 2] = ["a", "a9"];
/// What stands behind the names of a link line: a size that is right, one badly written, one too large, a
/// reserve above the size, and nothing.
const SIZES: [&str; 5] = [" 1", " 07", " 1000001", " 1 2", ""];

/// All texts of at most three bytes out of the first and the last digit, a letter, and a byte that is neither
/// and just above the digits.
fn short_texts() -> Vec<String> {
    let mut texts = vec![String::new()];
    let mut first = 0;
    for _ in 0..3 {
        let longer = first..texts.len();
        first = texts.len();
        for place in longer {
            texts.extend(["0", "9", "a", ":"].map(|byte| format!("{}{byte}", texts[place])));
        }
    }
    texts
}

/// Texts of 4 to 14 digits, and such with a letter, a capital, or a byte just below or above the digits at each
/// of their places.
fn long_texts() -> Vec<String> {
    const DIGITS: [&str; 2] = ["40718293650417", "00000000000000"];
    let mut texts = Vec::new();
    for length in 4..=14 {
        for digits in DIGITS.map(|digits| &digits[..length]) {
            texts.push(digits.to_string());
            for place in 0..length {
                let with = |byte| format!("{}{byte}{}", &digits[..place], &digits[place + 1..]);
                texts.extend(["x", "P", "/", ":"].map(with));
            }
        }
    }
    texts
}

/// Two texts, in the place of the names of a line.
type Pair<'text> = [&'text str; 2];

/// Pairs of texts: for each of the short ones that with all short ones, and at last each of the long ones before
/// and behind the name of a site.
fn pairs<'text>(short: &'text [String], long: &'text [String]) -> Vec<Vec<Pair<'text>>> {
    let with_all = |first: &'text String| short.iter().map(|it| [first.as_str(), it]).collect();
    let beside_a_site = |it: &'text String| [[it, SITES[0]], [SITES[1], it]];
    let of_long = long.iter().flat_map(beside_a_site).collect();
    short.iter().map(with_all).chain([of_long]).collect()
}

/// Calls `see` with sheets of two sites and a link, and what is due of each; returns how many.
///
/// A site line, marked or not, has each of the short and the long texts in the place of its name, and a field
/// more or not. A link line has each of the pairs in the place of its names, before each of the sizes.
///
/// # Errors
///
/// The first that `see` returns.
pub fn every_sheet<Failure>(
    mut see: impl FnMut(&[u8], &Due) -> Result<(), Failure>,
) -> Result<usize, Failure> {
    let mut count = 0;
    let mut try_lines = |lines: String, due: Due| {
        count += 1;
        see(
            &[Edition::One.heading(), b"\n", &tabbed(&lines)].concat(),
            &due,
        )
    };
    let [short, long] = [short_texts(), long_texts()];
    for text in short.iter().chain(&long) {
        for letter in ["N", "T"] {
            for more in ["", " 1"] {
                let lines = format!("N a\n{letter} {text}{more}\nL {text} a 1\n");
                try_lines(lines, due_of_site(text, more))?;
            }
        }
    }
    for names in pairs(&short, &long).into_iter().flatten() {
        for size in SIZES {
            let lines = format!("T a\nN a9\nL {}{size}\n", names.join(" "));
            try_lines(lines, due_of_link(names, size))?;
        }
    }
    Ok(count)
}

/// What is due of a site line with a text in the place of its name, and of the link to it from `a`.
fn due_of_site(text: &str, more: &str) -> Due {
    let number = if more.is_empty() {
        fault_of_names(&[text.as_bytes()])
    } else {
        Some(10)
    };
    match number {
        Some(number) => Due::Refused(number, 3),
        None if text == "a" => Due::Refused(5, 3),
        None => Due::of_two_sites(["a", text], [text, "a"], 1),
    }
}

/// What is due of a link line with two texts in the place of its names: the causes one after the other.
fn due_of_link(names: [&str; 2], size: &str) -> Due {
    let refused = |number| Due::Refused(number, 4);
    if size.is_empty() {
        return refused(10);
    }
    if let Some(number) = fault_of_names(&names.map(str::as_bytes)) {
        return refused(number);
    }
    match size {
        " 07" => refused(12),
        " 1000001" => refused(3),
        " 1 2" => refused(13),
        _ if !names.iter().all(|name| SITES.contains(name)) => refused(6),
        _ if names[0] == names[1] => refused(7),
        _ => Due::of_two_sites(SITES, names, 1),
    }
}

/// Calls `see` with logs over a path of two ends and a joint; returns how many lines they have.
///
/// For each of some amounts and either letter there is a log of each list of pairs in the place of the names.
///
/// # Errors
///
/// The first that `see` returns.
pub fn every_log<Failure>(
    mut see: impl FnMut(&Case) -> Result<(), Failure>,
) -> Result<usize, Failure> {
    let network = path();
    let sheet = network.sheet(Layout::SitesFirst, &mut Random::new(0));
    let log = Vec::new();
    let mut case = Case {
        network,
        sheet,
        log,
    };
    let mut count = 0;
    let [short, long] = [short_texts(), long_texts()];
    for names in pairs(&short, &long) {
        for letter in ["+", "-"] {
            for amount in [" 1", " 01", " 0", ""] {
                let line = |names: &Pair| format!("{letter} {}{amount}\n", names.join(" "));
                case.log = tabbed(&names.iter().map(line).collect::<String>());
                see(&case)?;
                count += names.len();
            }
        }
    }
    Ok(count)
}

/// The ends `a` and `a9` with a joint between them.
fn path() -> Network {
    Network {
        edition: Edition::Two,
        names: [SITES[0], "h", SITES[1]].map(Into::into).to_vec(),
        marks: vec![false; 3],
        links: vec![[0, 1], [1, 2]],
        sizes: vec![1, 2],
        reserves: vec![None; 2],
        spelling: Spelling::AsGiven,
    }
}
