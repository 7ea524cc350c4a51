//! Random range sheets, whole and damaged; small ones over a few numbers; and such at the limits.

use crate::bare::bare_number;
use crate::cases::in_either_case;
use crate::headings::{FIRST_LINES, LENGTHS};
use crate::reserve::{NAMES, NUMBERS};
use crate::span::HEADING;
use crate::tried::tabbed;
use crate::{Edition, Layout, Names, Network, Random, SHAPES, SITES, SIZE, Shape, Sizes};
use crate::{join_lines, some_reserve};

/// The sheet with an index among those of a seed: half are whole, a few of these of as many sites as there may be;
/// the others are damaged in one of many ways.
#[must_use]
pub fn sheet(seed: u64, index: u64) -> Vec<u8> {
    let start = Random::new(seed).bits() ^ index.wrapping_mul(0xd134_2543_de82_ef95);
    let mut random = Random::new(start);
    let random = &mut random;
    if index.is_multiple_of(2) {
        let most = match random.below(40) {
            0 => SITES,
            1 => 256,
            _ => *random.pick(&[2, 3, 5, 8, 20, 50]),
        };
        return join_lines(&lines(&Network::any(most, random), random));
    }
    damaged(random)
}

/// The lines of a range sheet of a tree, each without its byte 10: its sizes are the low ones.
///
/// A line with a low and a high size looks as one with a size and a reserve does, the high one in the place of the
/// reserve.
fn lines(network: &Network, random: &mut Random) -> Vec<Vec<u8>> {
    let mut network = network.clone();
    let times = *random.pick(&[1, 1, 2, 5, 1_000]);
    let widest = *random.pick(&[1, 2, 20, SIZE, SIZE]);
    network.reserves = network
        .sizes
        .iter()
        .map(|&low| {
            let width = some_reserve((SIZE - low).min(widest), random);
            Some(low + if random.once_in(times) { width } else { 0 })
        })
        .collect();
    let layout = Layout::any(random);
    headed(&network, layout, random)
}

/// The lines of a network under the heading of range sheets, its sizes being the low ones and its reserves the high ones.
fn headed(network: &Network, layout: Layout, random: &mut Random) -> Vec<Vec<u8>> {
    let mut lines = network.lines(layout, random);
    lines[0] = HEADING.to_vec();
    lines
}

/// A small range sheet with something wrong in it, most of the time.
fn damaged(random: &mut Random) -> Vec<u8> {
    let most = *random.pick(&[3, 4, 8, 12]);
    let network = Network::any(most, random);
    let mut lines = lines(&network, random);
    match random.below(16) {
        0 => {
            lines[0] = tabbed(random.pick::<&str>(&FIRST_LINES));
        }
        1 => return near_the_limits(lines, random),
        2 => return many_sites(random),
        3 => return edited(join_lines(&lines), random),
        4 => _ = lines.remove(random.below(lines.len())),
        5 => {
            let line = random.pick(&lines).clone();
            lines.insert(random.between(1, lines.len()), line);
        }
        6 => {
            let last = lines.len() - 1;
            lines.swap(random.between(1, last), random.between(1, last));
        }
        // The sheet of a network, under its own heading or that of range sheets.
        7 => {
            lines = network.lines(Layout::any(random), random);
            if random.once_in(2) {
                lines[0] = HEADING.to_vec();
            }
        }
        8 => {
            let line = faulty_site(&network, random);
            lines.insert(random.between(1, lines.len()), line);
        }
        _ => {
            let count = random.between(1, 2);
            for _ in 0..count {
                let links = 1..lines.len();
                let links: Vec<usize> = links.filter(|&it| lines[it].starts_with(b"L")).collect();
                if !links.is_empty() {
                    let place = *random.pick(&links);
                    lines[place] = faulty_link(&lines[place], random);
                }
            }
        }
    }
    let mut sheet = join_lines(&lines);
    if random.once_in(30) {
        sheet.pop();
    }
    sheet
}

/// A link line with other names, numbers, or another count of fields.
fn faulty_link(line: &[u8], random: &mut Random) -> Vec<u8> {
    let mut fields: Vec<Vec<u8>> = line
        .split(|&byte| byte == b'\t')
        .map(<[u8]>::to_vec)
        .collect();
    let faults = random.between(1, 3);
    for _ in 0..faults {
        let last = fields.len() - 1;
        match random.below(12) {
            0 if fields.len() > 2 => _ = fields.pop(),
            1 => fields.push(random.pick(&[&b"0"[..], b"1", b""]).to_vec()),
            2 => fields[1.min(last)] = random.pick(&NAMES).as_bytes().to_vec(),
            3 => fields[2.min(last)] = b"unknown".to_vec(),
            4 => fields[random.between(1, 2).min(last)] = bare_number(random),
            5 => fields[1.min(last)] = in_either_case(b"unknown", random),
            6 => fields[0] = random.pick(&[&b"l"[..], b"", b"L ", b"N", b"P"]).to_vec(),
            // The low size above the high one, or just not.
            7..=9 if fields.len() > 4 => {
                let high = random.below(4);
                let low = high + random.below(3);
                fields[3] = low.to_string().into_bytes();
                fields[4] = high.to_string().into_bytes();
            }
            _ => {
                let place = random.between(3, 4).min(last);
                fields[place] = tabbed(random.pick::<&str>(&NUMBERS));
            }
        }
    }
    fields.join(&b'\t')
}

/// A site line with a fault, or one too many.
fn faulty_site(network: &Network, random: &mut Random) -> Vec<u8> {
    let letter = random.pick(&[&b"N"[..], b"T", b"t"]).to_vec();
    let known = random.pick(&network.names).clone();
    let name = match random.below(6) {
        0 => in_either_case(&known, random),
        1 => bare_number(random),
        2 => b"abcdefghijklm".to_vec(),
        3 => Vec::new(),
        4 => b"a\tb".to_vec(),
        _ => b"unknown".to_vec(),
    };
    [letter, name].join(&b'\t')
}

/// A sheet of about as many bytes as an edition has, under the heading of range sheets or another line.
fn near_the_limits(mut lines: Vec<Vec<u8>>, random: &mut Random) -> Vec<u8> {
    let limit = random.pick(&Edition::ALL).bytes();
    let length = random.between(limit - 2, limit + 2);
    if random.once_in(2) {
        lines[0] = tabbed(random.pick::<&str>(&FIRST_LINES));
    }
    let mut line = lines[random.below(lines.len())].clone();
    let room = length.saturating_sub(join_lines(&lines).len() + 1);
    line.resize(room, *random.pick(b"70a\t"));
    lines.push(line);
    join_lines(&lines)
}

/// A tree of about as many sites as an edition has.
fn many_sites(random: &mut Random) -> Vec<u8> {
    let limit = random.pick(&Edition::ALL).sites();
    let count = random.between(limit - 1, limit + 2);
    let shape = *random.pick(&SHAPES);
    let mut network = Network::random(shape, count, Sizes::Small, Names::Counted, random);
    if random.once_in(2) {
        network.mark(random);
    }
    join_lines(&lines(&network, random))
}

/// Some bytes are others, are missing or come on top.
fn edited(mut sheet: Vec<u8>, random: &mut Random) -> Vec<u8> {
    let edits = random.between(1, 3);
    for _ in 0..edits {
        // A byte that is missing may have been the last.
        if sheet.is_empty() {
            break;
        }
        let place = random.below(sheet.len());
        let byte = *random.pick(b"\t\n 019aLNTz-\r\0");
        match random.below(4) {
            0 => _ = sheet.remove(place),
            1 => sheet.insert(place, byte),
            2 if place > 0 => sheet.truncate(place),
            _ => sheet[place] = byte,
        }
    }
    sheet
}

/// Calls `see` with range sheets of the sites `a` and `b` and a link line, which has two names and two numbers, all
/// taken in all ways out of a few, or another count of numbers; it is the only one, or follows a link between the
/// sites. Then under many first lines, of a few bytes and of about as many as an edition has. Returns how many.
///
/// # Errors
///
/// The first that `see` returns.
pub fn every_sheet<Failure>(
    mut see: impl FnMut(&[u8]) -> Result<(), Failure>,
) -> Result<usize, Failure> {
    let mut count = 0;
    let mut try_text = |text: Vec<u8>| {
        count += 1;
        see(&text)
    };
    let pairs = |of: &[&'static str]| -> Vec<[&'static str; 2]> {
        let pairs = |first: &&'static str| of.iter().map(|second| [*first, *second]).collect();
        of.iter()
            .flat_map(|first| -> Vec<_> { pairs(first) })
            .collect()
    };
    for above in ["", "L b a 1 1\n"] {
        for names in pairs(&NAMES) {
            for numbers in pairs(&NUMBERS) {
                try_text(two_sites(above, names, &numbers))?;
            }
            for number in NUMBERS {
                try_text(two_sites(above, names, &[number]))?;
            }
        }
    }
    for [low, high] in pairs(&NUMBERS) {
        for sixth in ["", "0", "1"] {
            try_text(two_sites("", ["a", "b"], &[low, high, sixth]))?;
        }
    }
    for first in FIRST_LINES {
        for rest in ["", "\n", "\nN a\nN b\nL a b 1 2\n", "\nN a\nN b\nL a b 1\n"] {
            try_text(tabbed(&format!("{first}{rest}")))?;
        }
        for length in LENGTHS {
            for (rest, byte) in [
                ("\n", b'\n'),
                ("\nN a\nN b\nL a b 1 2\nL a b 1 ", b'7'),
                ("", b'1'),
            ] {
                let mut text = tabbed(&format!("{first}{rest}"));
                text.resize(length - 1, byte);
                text.push(b'\n');
                try_text(text)?;
            }
        }
    }
    Ok(count)
}

/// The sheet with a link line, and perhaps another above it.
fn two_sites(above: &str, names: [&str; 2], numbers: &[&str]) -> Vec<u8> {
    let line = format!("L {} {}", names.join(" "), numbers.join(" "));
    tabbed(&format!("ranges 1\nN a\nN b\n{above}{line}\n"))
}

/// The range sheets with the longest reports: all sites and names that there may be, and the largest sizes, some with
/// every site marked.
#[must_use]
pub fn longest() -> Vec<Vec<u8>> {
    let of = |(shape, is_marked): (Shape, bool)| {
        let random = &mut Random::new(1);
        let mut network = Network::random(shape, SITES, Sizes::Large, Names::Long, random);
        network.sizes.fill(SIZE);
        network.marks.fill(is_marked);
        network.reserves = network.sizes.iter().map(|&low| Some(low)).collect();
        join_lines(&headed(&network, Layout::SitesFirst, random))
    };
    let shapes = SHAPES.map(|shape| [(shape, false), (shape, true)]).concat();
    shapes.into_iter().map(of).collect()
}

/// The range sheet of a tree of a shape with so many sites: long names, and large sizes of many widths.
#[must_use]
pub fn largest(shape: Shape, sites: usize, random: &mut Random) -> Vec<u8> {
    let mut network = Network::random(shape, sites, Sizes::Large, Names::Long, random);
    let lows = network.sizes.iter();
    let high = |&low: &u32| random.between(low as usize, SIZE as usize) as u32;
    network.reserves = lows.map(high).map(Some).collect();
    join_lines(&headed(&network, Layout::Mixed, random))
}
