//! Damaged sheets: every refusal, faults in any number and place, and noise.

use sheets::bare::{bare_number, is_bare, is_name};
use sheets::cases::in_either_case;
use sheets::{
    Edition, Layout, Names, Network, Random, SIZE, Shape, Sizes, join_lines, some_reserve,
};
use std::collections::HashSet;

/// A damaged sheet, and its refusal if the damage tells it.
pub struct Damaged {
    pub sheet: Vec<u8>,
    pub refusal: Option<(u8, u32)>,
}

type Lines = Vec<Vec<u8>>;

/// A sheet of an edition damaged in one of many ways.
pub fn damaged(edition: Edition, random: &mut Random) -> Damaged {
    let mut damaged = any_damage(edition, random);
    if is_too_long(&damaged.sheet) {
        damaged.refusal = Some((1, 0));
    }
    damaged
}

/// Whether a sheet has more bytes than its line 1 lets it have.
fn is_too_long(sheet: &[u8]) -> bool {
    sheet.len() > Edition::told(sheet).unwrap_or(Edition::One).bytes()
}

fn any_damage(edition: Edition, random: &mut Random) -> Damaged {
    match random.below(52) {
        0 => wrong_length(edition, random),
        1 => near_the_limit(edition, random),
        2 => too_many_sites(edition, random),
        3 | 4 => sheet_of_pieces(edition, random),
        5 => random_bytes(edition, random),
        6 => edited(edition, random),
        7 => cut_off(edition, random),
        8 => unended(edition, random),
        9 => with_carriage_returns(edition, random),
        10 => rearranged(edition, random),
        11 => not_joined(edition, random),
        _ => {
            let (mut lines, number, line) = with_faulty_line(edition, random);
            // The lowest faulty line decides, so what comes after it does not matter.
            if random.once_in(2) {
                spoil_after(&mut lines, line, random);
            }
            Damaged {
                sheet: join_lines(&lines),
                refusal: Some((number, line as u32)),
            }
        }
    }
}

fn small_network(edition: Edition, random: &mut Random) -> Network {
    let most = *random.pick(&[3, 8, 8, 20]);
    let mut network = Network::any(most, random);
    network.edition = edition;
    network
}

fn small_lines(edition: Edition, random: &mut Random) -> Lines {
    let network = small_network(edition, random);
    network.lines(Layout::any(random), random)
}

/// No byte, or more bytes than a sheet may have.
fn wrong_length(edition: Edition, random: &mut Random) -> Damaged {
    let mut sheet = Vec::new();
    if !random.once_in(4) {
        sheet = join_lines(&small_lines(edition, random));
        let over = *random.pick(&[1, 1, 2, 100, 5_000]);
        let filler = *random.pick(b"\n9a\0");
        sheet.resize(edition.bytes() + over, filler);
    }
    Damaged {
        sheet,
        refusal: Some((1, 0)),
    }
}

/// A sheet of nearly as many bytes as one of the editions has, or just above; with a heading or without.
fn near_the_limit(edition: Edition, random: &mut Random) -> Damaged {
    let mut lines = small_lines(edition, random);
    let limit = random.pick(&Edition::ALL).bytes();
    let length = random.between(limit - 3, limit + 3);
    let mut line = lines.len() as u32 + 1;
    let room = length - join_lines(&lines).len();
    let name = lines[1][2..].to_vec();
    let (mut text, mut number) = match random.below(8) {
        0 => (vec![], 2),
        1 => ([b"N", name.as_slice(), b""].join(&b'\t'), 10),
        2 => (site_line(b"", random), 11),
        3 => ([b"L", name.as_slice(), &name, b"0"].join(&b'\t'), 12),
        4 => ([b"L", name.as_slice(), &name, b"1", b"0"].join(&b'\t'), 12),
        5 => ([b"L", name.as_slice(), &name, b"1", b""].join(&b'\t'), 3),
        _ => ([b"L", name.as_slice(), &name, b""].join(&b'\t'), 3),
    };
    text.resize(room - 1, b'7');
    lines.push(text);
    let mut sheet = join_lines(&lines);
    if random.once_in(4) {
        // The same length without byte 10 at the end.
        *sheet.last_mut().expect("a sheet has bytes") = b'7';
        number = 2;
    }
    if random.once_in(4) {
        // The same length under a line of the same length that is no heading.
        sheet[random.below(edition.heading().len())] ^= 1;
        (number, line) = (2, 1);
    }
    Damaged {
        sheet,
        refusal: Some((number, line)),
    }
}

/// A site line more than an edition has, of the wrong form or with a name already given, in either case, or
/// not.
fn too_many_sites(edition: Edition, random: &mut Random) -> Damaged {
    let names = *random.pick(&[Names::Counted, Names::Any]);
    let sites = edition.sites();
    let mut network = Network::random(Shape::Attached, sites, Sizes::Small, names, random);
    if random.once_in(2) {
        network.mark(random);
    }
    let mut lines = network.lines(Layout::any(random), random);
    let last_site = lines
        .iter()
        .rposition(|line| is_site(line))
        .expect("there are sites");
    let place = random.between(last_site + 1, lines.len());
    let (text, number) = match random.below(4) {
        0 => (site_in_either_case(&lines[last_site], random), 4),
        1 => wrong_form(&lines[last_site], random),
        _ => (site_line(&unknown_name(&network.names, random), random), 4),
    };
    lines.insert(place, text);
    Damaged {
        sheet: join_lines(&lines),
        refusal: Some((number, place as u32 + 1)),
    }
}

/// Pieces of lines put together at random.
fn sheet_of_pieces(edition: Edition, random: &mut Random) -> Damaged {
    const LINES: [&[u8]; 21] = [
        b"N\t4\n",
        b"L\ta\t0\t1\n",
        b"N\ta\n",
        b"N\tb\n",
        b"N\tc\n",
        b"N\tA\n",
        b"T\ta\n",
        b"T\tb\n",
        b"T\tC\n",
        b"L\ta\tb\t1\n",
        b"L\tb\tc\t2\n",
        b"L\tc\ta\t0\n",
        b"L\ta\ta\t1\n",
        b"L\ta\tq\t1\n",
        b"L\tA\tb\t3\n",
        b"L\ta\tb\t1000000\n",
        b"L\ta\tb\t1000001\n",
        b"L\ta\tb\t3\t1\n",
        b"L\tb\tc\t2\t2\n",
        b"L\tc\tb\t1\t2\n",
        b"L\tA\tq\t1\t1000001\n",
    ];
    const PIECES: [&[u8]; 26] = [
        b"L\ta\tb\t01\n",
        b"L\ta\tb\t1\t\n",
        b"L\ta\tb\t5\t1\t1\n",
        b"L\ta\tb\n",
        b"N\tc\tc\n",
        b"N\tc c\n",
        b"T\tc\tc\n",
        b"T\t-\n",
        b" ",
        b"L\t",
        b"N\t",
        b"T\t",
        b"a",
        b"b",
        b"abcdefghijkl",
        b"\t",
        b"\t",
        b"\n",
        b"\n",
        b"0",
        b"1",
        b"1000000",
        b"\r",
        b"network\t1\n",
        b"network\t2\n",
        b"\0",
    ];
    let whole_lines = random.once_in(2);
    let mut sheet = [edition.heading(), b"\n"].concat();
    for _ in 0..random.below(14) {
        let is_line = if whole_lines {
            !random.once_in(12)
        } else {
            random.once_in(3)
        };
        let pieces = if is_line { &LINES[..] } else { &PIECES };
        let place = random.below(pieces.len());
        sheet.extend_from_slice(pieces[place]);
    }
    Damaged {
        sheet,
        refusal: None,
    }
}

fn random_bytes(edition: Edition, random: &mut Random) -> Damaged {
    let mut sheet = edition.heading().to_vec();
    if random.once_in(2) {
        sheet.truncate(random.below(sheet.len() + 1));
    } else {
        sheet.push(b'\n');
        sheet.extend(*random.pick(&[b"N\t", b"T\t"]));
    }
    let few = random.once_in(2);
    for _ in 0..random.below(200) {
        sheet.push(if few {
            *random.pick(b"NTL\t\n01ab\r")
        } else {
            random.bits() as u8
        });
    }
    Damaged {
        sheet,
        refusal: None,
    }
}

/// A few bytes changed, put in, taken out or said twice.
fn edited(edition: Edition, random: &mut Random) -> Damaged {
    let mut sheet = join_lines(&small_lines(edition, random));
    for _ in 0..random.between(1, 6) {
        let place = random.below(sheet.len());
        let byte = match random.below(4) {
            0 => random.bits() as u8,
            1 => *random.pick(b"\t\n0NTL"),
            2 => sheet[place] ^ 0x20,
            _ => *random.pick(&sheet),
        };
        match random.below(4) {
            0 => sheet[place] = byte,
            1 => sheet.insert(place, byte),
            2 if sheet.len() > 1 => _ = sheet.remove(place),
            _ => {
                let end = random.between(place, sheet.len().min(place + 30));
                let copy = sheet[place..end].to_vec();
                sheet.splice(place..place, copy);
            }
        }
    }
    Damaged {
        sheet,
        refusal: None,
    }
}

/// The start of a sheet.
fn cut_off(edition: Edition, random: &mut Random) -> Damaged {
    let lines = small_lines(edition, random);
    let mut sheet = join_lines(&lines);
    sheet.truncate(random.below(sheet.len()));
    let line = sheet.split(|&byte| byte == b'\n').count() as u32;
    let refusal = match sheet.last() {
        None => Some((1, 0)),
        Some(b'\n') => None,
        Some(_) => Some((2, line)),
    };
    Damaged { sheet, refusal }
}

/// A last line without byte 10, of the right form or not.
fn unended(edition: Edition, random: &mut Random) -> Damaged {
    let mut lines = small_lines(edition, random);
    if random.once_in(2) {
        let line = random.pick(&lines[1..]).clone();
        let (mut line, _) = wrong_form(&line, random);
        if line.is_empty() {
            line.push(*random.pick(b"NTL"));
        }
        lines.push(line);
    }
    let mut sheet = join_lines(&lines);
    sheet.pop();
    Damaged {
        sheet,
        refusal: Some((2, lines.len() as u32)),
    }
}

/// Byte 13 before the byte 10 of all lines or of one.
fn with_carriage_returns(edition: Edition, random: &mut Random) -> Damaged {
    let mut lines = small_lines(edition, random);
    let first = if random.once_in(3) {
        0
    } else {
        random.below(lines.len())
    };
    let only_first = random.once_in(2);
    // It becomes part of the line's last field.
    let number = match lines[first][0] {
        b'N' | b'T' => 11,
        b'L' => 12,
        _ => 2,
    };
    for (place, line) in lines.iter_mut().enumerate() {
        if place == first || (place > first && !only_first) {
            line.push(b'\r');
        }
    }
    Damaged {
        sheet: join_lines(&lines),
        refusal: Some((number, first as u32 + 1)),
    }
}

/// Lines in another order, left out or said twice.
fn rearranged(edition: Edition, random: &mut Random) -> Damaged {
    let mut lines = small_lines(edition, random);
    let from = usize::from(!random.once_in(8));
    match random.below(3) {
        0 => random.shuffle(&mut lines[from..]),
        1 => {
            let place = random.between(from, lines.len() - 1);
            let copy = lines[random.below(lines.len())].clone();
            lines.insert(place, copy);
        }
        _ => {
            for _ in 0..random.between(1, 2) {
                lines.remove(random.between(from.min(lines.len() - 1), lines.len() - 1));
            }
        }
    }
    Damaged {
        sheet: join_lines(&lines),
        refusal: None,
    }
}

/// A link left out, a site without a link, or under two sites.
fn not_joined(edition: Edition, random: &mut Random) -> Damaged {
    let network = small_network(edition, random);
    let mut lines = network.lines(Layout::any(random), random);
    match random.below(4) {
        0 => lines.truncate(random.between(1, 2)),
        1 => {
            let line = site_line(&unknown_name(&network.names, random), random);
            lines.insert(random.between(1, lines.len()), line);
        }
        _ => {
            let links: Vec<usize> = places(&lines, |line| !is_site(line));
            lines.remove(*random.pick(&links));
        }
    }
    Damaged {
        sheet: join_lines(&lines),
        refusal: Some((8, 0)),
    }
}

/// Whether a line, of the right form, is that of a site.
fn is_site(line: &[u8]) -> bool {
    line.starts_with(b"N\t") || line.starts_with(b"T\t")
}

/// The places of lines behind the heading, all of the right form.
fn places(lines: &[Vec<u8>], are: impl Fn(&[u8]) -> bool) -> Vec<usize> {
    (1..lines.len())
        .filter(|&place| are(&lines[place]))
        .collect()
}

/// A line of a site, marked or not.
fn site_line(name: &[u8], random: &mut Random) -> Vec<u8> {
    let letter = *random.pick(&[b"N", b"T"]);
    [letter, name].join(&b'\t')
}

/// A site line, marked or not, with the name of another in either case.
fn site_in_either_case(line: &[u8], random: &mut Random) -> Vec<u8> {
    let name = in_either_case(&line[2..], random);
    site_line(&name, random)
}

/// A name given to no site in either case, and no bare number: a new one, or one that looks much like one
/// given.
fn unknown_name(names: &[Vec<u8>], random: &mut Random) -> Vec<u8> {
    let known: HashSet<Vec<u8>> = names.iter().map(|name| name.to_ascii_uppercase()).collect();
    loop {
        let like = random.pick(names);
        let mut name = in_either_case(like, random);
        match random.below(4) {
            0 if name.len() < 12 => name.push(*random.pick(b"0aZ")),
            1 if name.len() > 1 => _ = name.pop(),
            2 => {
                // As of `0` and `P`, of `0` and `p`, of `A` and `Q`, of `A` and `C`.
                let place = random.below(name.len());
                name[place] ^= *random.pick(&[0x60, 0x40, 0x10, 0x02]);
            }
            _ => name = Names::Any.list(1, random).swap_remove(0),
        }
        let may_be_given = is_name(&name) && !is_bare(&name);
        if may_be_given && !known.contains(&name.to_ascii_uppercase()) {
            return name;
        }
    }
}

/// A number above the largest size, also such as look small in too few bits.
fn too_large(random: &mut Random) -> Vec<u8> {
    let number = match random.below(6) {
        0 => u128::from(SIZE) + 1,
        1 => u128::from(SIZE) + 1 + random.below(9_000_000) as u128,
        2 => 10_u128.pow(random.between(7, 30) as u32),
        3 => (1_u128 << *random.pick(&[32, 64])) + random.below(1_000) as u128,
        4 => (1_u128 << random.between(21, 100)) + random.below(3) as u128,
        _ => {
            let most = *random.pick(&[20, 100, 8_000]);
            let digits = random.between(8, most);
            let mut text = vec![b'0'; digits];
            text[0] = *random.pick(b"123456789");
            return text;
        }
    };
    number.to_string().into_bytes()
}

/// The fields of a line.
fn fields(line: &[u8]) -> Lines {
    line.split(|&byte| byte == b'\t')
        .map(<[u8]>::to_vec)
        .collect()
}

/// The faults of form in their order within a line.
const FORMS: [u8; 5] = [2, 10, 11, 17, 12];

/// A line of the wrong form made from a site line or a link line, and its number: 2, 10, 11, 17 or 12.
fn wrong_form(line: &[u8], random: &mut Random) -> (Vec<u8>, u8) {
    let mut fields = fields(line);
    let number = *random.pick(&[2, 10, 10, 10, 11, 11, 11, 17, 17, 17, 12, 12, 12]);
    if number == 12 && fields[0] != b"L" {
        let name = fields[1].clone();
        fields = vec![b"L".to_vec(), name.clone(), name, b"1".to_vec()];
    }
    let is_link = fields[0] == b"L";
    let names = if is_link { 1..3 } else { 1..2 };
    if is_link && random.once_in(3) {
        fields.truncate(4);
        if random.once_in(2) {
            fields.push(any_number(random));
        }
    }
    // Faults that come later in the order are put in or not: they do not matter.
    let place = |fault| FORMS.iter().position(|&it| it == fault);
    let mut has = |fault| number == fault || (place(number) < place(fault) && random.once_in(3));
    let [bad_number, bare, bad_name, wrong_count] = [12, 17, 11, 10].map(&mut has);
    if bad_number && is_link {
        spoil(&mut fields[3..], random, badly_written);
    }
    if bare {
        spoil(&mut fields[names.clone()], random, |_, random| {
            bare_number(random)
        });
    }
    if bad_name {
        spoil(&mut fields[names], random, bad_name_like);
    }
    if wrong_count {
        count_wrongly(&mut fields, random);
    }
    if number == 2 {
        spoil_letter(&mut fields, random);
    }
    (fields.join(&b'\t'), number)
}

/// Puts something else in the place of one of the fields, or of all.
fn spoil(
    fields: &mut [Vec<u8>],
    random: &mut Random,
    spoilt: impl Fn(&[u8], &mut Random) -> Vec<u8>,
) {
    let one = random.below(fields.len());
    let all = random.once_in(3);
    for (place, field) in fields.iter_mut().enumerate() {
        if all || place == one {
            *field = spoilt(field, random);
        }
    }
}

/// A number that is well written, for a reserve below the size, above it, or too large.
fn any_number(random: &mut Random) -> Vec<u8> {
    match random.below(3) {
        0 => too_large(random),
        1 => some_reserve(SIZE, random).to_string().into_bytes(),
        _ => random.below(4).to_string().into_bytes(),
    }
}

/// A size and a reserve above it, none of them too large.
fn reserve_above_size(random: &mut Random) -> Lines {
    let size = some_reserve(SIZE - 1, random);
    let above = match random.below(3) {
        0 => 0,
        _ => some_reserve(SIZE - 1 - size, random),
    };
    [size, size + 1 + above]
        .map(|number| number.to_string().into_bytes())
        .to_vec()
}

/// No number: empty, with a leading zero, or with a byte that is no digit.
fn badly_written(size: &[u8], random: &mut Random) -> Vec<u8> {
    const SIZES: [&[u8]; 10] = [
        b"", b"00", b"01", b"-1", b"+1", b"1.", b"1e2", b"0x1", b"1,000", b"one",
    ];
    let mut size = size.to_vec();
    match random.below(5) {
        0 => size.insert(0, b'0'),
        1 => size = [b"0", too_large(random).as_slice()].concat(),
        2 => {
            let place = random.between(0, size.len());
            size.insert(place, *random.pick(b"/: -ax\0\r\xb0\xb9"));
        }
        3 => size.clear(),
        _ => size = random.pick(&SIZES).to_vec(),
    }
    size
}

/// No name: empty, too long, or with a byte that is no letter and no digit.
fn bad_name_like(name: &[u8], random: &mut Random) -> Vec<u8> {
    let mut name = name.to_vec();
    match random.below(5) {
        0 => name.clear(),
        1 => {
            // A digit without the bit that tells letters' cases apart, or a letter above 127.
            let place = random.below(name.len());
            let is_digit = name[place].is_ascii_digit();
            name[place] ^= if is_digit { 0x20 } else { 0x80 };
        }
        2 => {
            let most = *random.pick(&[13, 16, 17, 40, 6_000]);
            let length = random.between(13, most);
            if random.once_in(3) {
                name = vec![*random.pick(b"07"); length];
            }
            name.resize(length, b'n');
        }
        _ => {
            let place = random.between(0, name.len());
            name.insert(place, *random.pick(b"/:@[`{_.- \0\r\x7f\xb0\xe1\xff"));
        }
    }
    name
}

/// Another number of fields than a site or a link has; the first stays.
fn count_wrongly(fields: &mut Lines, random: &mut Random) {
    let right = if fields[0] == b"L" { 4..=5 } else { 2..=2 };
    let count = loop {
        let most = *random.pick(&[3, 6, 6, 40]);
        let count = random.between(1, most);
        if !right.contains(&count) {
            break count;
        }
    };
    if random.once_in(2) {
        // As of a space typed for a tab.
        while fields.len() > count.max(2) {
            let place = random.between(1, fields.len() - 2);
            let next = fields.remove(place + 1);
            fields[place] = [fields[place].as_slice(), &next].join(&b' ');
        }
    }
    fields.truncate(count);
    while fields.len() < count {
        let field = *random.pick(&[&b""[..], b"", b"x", b"1", b"07", b"-"]);
        fields.insert(random.between(1, fields.len()), field.to_vec());
    }
}

/// Another first field than the letter of a site or a link.
fn spoil_letter(fields: &mut Lines, random: &mut Random) {
    match random.below(8) {
        0 => *fields = vec![Vec::new()],
        1 => *fields = vec![random.pick(&Edition::ALL).heading().to_vec()],
        2 => fields[0][0] ^= 0x20,
        3 => fields[0][0] = *random.pick(b"PXSU#\x80"),
        4 => fields[0].insert(0, *random.pick(b"\r NT")),
        5 => fields.insert(0, Vec::new()),
        6 => fields[0].push(*random.pick(b"NT1 \r\0a")),
        _ => {
            // A space typed for the first tab.
            fields[0].push(b' ');
            if fields.len() > 1 {
                let next = fields.remove(1);
                fields[0].extend(next);
            }
        }
    }
}

/// A first line that is no heading.
fn wrong_heading(lines: &[Vec<u8>], random: &mut Random) -> Vec<u8> {
    const OTHERS: [&[u8]; 6] = [b"3", b"0", b"12", b"21", b"22", b"02"];
    let mut line = lines[0].clone();
    let place = random.below(line.len());
    match random.below(10) {
        0 => line.push(*random.pick(b"\r \t\x000")),
        1 => line.insert(0, *random.pick(b"\r \tN\xef")),
        2 => line[place] ^= 0x20,
        3 => _ = line.remove(place),
        4 => line.truncate(place),
        5 => line = [b"network ", &b"\t"[random.below(2)..], b"1"].concat(),
        6 | 7 => line = [b"network", *random.pick(&OTHERS)].join(&b'\t'),
        8 => line.clone_from(random.pick(&lines[1..])),
        _ => {
            let copied = random.between(1, lines.len() - 1);
            (line, _) = wrong_form(&lines[copied], random);
        }
    }
    if Edition::told(&line).is_some() {
        line.clear();
    }
    line
}

/// A sheet with one faulty line: its lines, the refusal's number, and the line counted from 1.
fn with_faulty_line(edition: Edition, random: &mut Random) -> (Lines, u8, usize) {
    let network = small_network(edition, random);
    let mut lines = network.lines(Layout::any(random), random);
    let sites = places(&lines, is_site);
    let links = places(&lines, |line| !is_site(line));
    match random.below(30) {
        0 => {
            lines[0] = wrong_heading(&lines, random);
            (lines, 2, 1)
        }
        1..=9 => {
            let place = random.between(1, lines.len() - 1);
            let (line, number) = wrong_form(&lines[place], random);
            lines[place] = line;
            (lines, number, place + 1)
        }
        10..=18 => {
            let place = random.between(1, lines.len());
            let copied = random.between(1, lines.len() - 1);
            let (line, number) = wrong_form(&lines[copied], random);
            lines.insert(place, line);
            (lines, number, place + 1)
        }
        19 => {
            // A name already given, after its line, in either case.
            let given = *random.pick(&sites);
            let place = random.between(given + 1, lines.len());
            let line = site_in_either_case(&lines[given], random);
            lines.insert(place, line);
            (lines, 5, place + 1)
        }
        20 => {
            // A link put before one of its sites.
            let link = *random.pick(&links);
            let line = lines.remove(link);
            let mut later_site = 0;
            for name in line.split(|&byte| byte == b'\t').skip(1).take(2) {
                let site = sites.iter().find(|&&site| {
                    let line = &lines[site - usize::from(site > link)];
                    line[2..].eq_ignore_ascii_case(name)
                });
                later_site = later_site.max(*site.expect("links name their sites"));
            }
            let place = random.between(1, later_site);
            lines.insert(place, line);
            (lines, 6, place + 1)
        }
        21..=23 => {
            // A reserve above the size.
            let place = *random.pick(&links);
            let mut fields = fields(&lines[place]);
            fields.splice(3.., reserve_above_size(random));
            lines[place] = fields.join(&b'\t');
            (lines, 13, place + 1)
        }
        24 | 25 => {
            let faults: &[u8] = if random.once_in(2) { &[13] } else { &[13, 6] };
            with_faulty_link(&network, lines, &links, faults, random)
        }
        _ => {
            let mut faults = vec![FORM, 3, 13, 6];
            faults.retain(|&fault| random.once_in(if fault == FORM { 2 } else { 3 }));
            with_faulty_link(&network, lines, &links, &faults, random)
        }
    }
}

/// Stands for a fault of form, whichever it is.
const FORM: u8 = 2;

/// A sheet with a link line whose sites are already joined and which has the faults that are told, in
/// their order: one of form, 3, 13, 6.
fn with_faulty_link(
    network: &Network,
    mut lines: Lines,
    links: &[usize],
    faults: &[u8],
    random: &mut Random,
) -> (Lines, u8, usize) {
    // A copy of a link after it, turned round or not, joins what is already joined; so does a
    // link from a site to itself. Names may be spelt otherwise then.
    let link = *random.pick(links);
    let place = random.between(link + 1, lines.len());
    let mut fields = fields(&lines[link]);
    match random.below(3) {
        0 => fields.swap(1, 2),
        1 => {
            let (before, after) = fields.split_at_mut(2);
            after[0].clone_from(&before[1]);
        }
        _ => (),
    }
    if random.once_in(2) {
        for name in &mut fields[1..3] {
            *name = in_either_case(name, random);
        }
    }
    if faults.contains(&6) {
        fields[random.between(1, 2)] = unknown_name(&network.names, random);
    }
    if faults.contains(&13) {
        fields.splice(3.., reserve_above_size(random));
    }
    if faults.contains(&3) {
        spoil_sizes(&mut fields, random);
    }
    let line = fields.join(&b'\t');
    let (line, number) = match faults.first() {
        Some(&FORM) => wrong_form(&line, random),
        Some(&first) => (line, first),
        None => (line, 7),
    };
    lines.insert(place, line);
    (lines, number, place + 1)
}

/// Makes the size of a link line too large, or its reserve, or both; the reserve may be new.
fn spoil_sizes(fields: &mut Lines, random: &mut Random) {
    match random.below(3) {
        0 => fields[3] = too_large(random),
        1 => {
            fields.truncate(4);
            fields.push(too_large(random));
        }
        _ => {
            fields.truncate(3);
            fields.extend([too_large(random), too_large(random)]);
        }
    }
}

/// Spoils lines after the line counted from 1.
fn spoil_after(lines: &mut Lines, line: usize, random: &mut Random) {
    for text in &mut lines[line..] {
        if random.once_in(3) {
            *text = if random.once_in(2) {
                wrong_form(text, random).0
            } else {
                Vec::new()
            };
        }
    }
    if random.once_in(4) {
        lines.push((0..random.below(60)).map(|_| random.bits() as u8).collect());
    }
}
