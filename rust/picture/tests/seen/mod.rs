//! Pictures seen from outside: a strict reader of their XML, and the room that their texts and shapes take.

use std::collections::HashSet;

/// An element, with the text in it.
#[derive(Debug)]
pub struct Element {
    pub name: String,
    pub attributes: Vec<(String, String)>,
    pub text: String,
}

impl Element {
    /// The value of an attribute, or nothing.
    pub fn get(&self, name: &str) -> &str {
        let found = self.attributes.iter().find(|(key, _)| key == name);
        found.map_or("", |(_, value)| value)
    }

    /// A whole number of an attribute.
    pub fn number(&self, name: &str) -> i32 {
        let value = self.get(name);
        value
            .parse()
            .unwrap_or_else(|_| panic!("{name}={value:?} of {self:?}"))
    }

    /// Whether it has a class.
    pub fn is_of(&self, class: &str) -> bool {
        self.get("class").split(' ').any(|it| it == class)
    }
}

/// The elements of a text that must be well formed: one root, elements that end in their order, attributes that are
/// there once, and no sign of XML that is not written out.
pub fn elements(text: &str) -> Vec<Element> {
    let mut elements: Vec<Element> = Vec::new();
    let mut open: Vec<usize> = Vec::new();
    let mut rest = text;
    while let Some(start) = rest.find('<') {
        let (before, tag) = rest.split_at(start);
        match open.last() {
            Some(&inner) => elements[inner].text.push_str(&unescaped(before)),
            None => assert!(before.trim().is_empty(), "text outside of the root"),
        }
        let end = tag.find('>').expect("a tag ends");
        let inner = &tag[1..end];
        rest = &tag[end + 1..];
        if let Some(name) = inner.strip_prefix('/') {
            let last = open.pop().expect("an element is open");
            assert_eq!(elements[last].name, name, "elements end in their order");
            continue;
        }
        assert!(!open.is_empty() || elements.is_empty(), "there is one root");
        let is_empty = inner.ends_with('/');
        elements.push(element(inner.strip_suffix('/').unwrap_or(inner)));
        if !is_empty {
            open.push(elements.len() - 1);
        }
    }
    assert!(
        open.is_empty() && rest.trim().is_empty(),
        "all elements end"
    );
    elements
}

/// The element of a tag without its brackets.
fn element(tag: &str) -> Element {
    let (name, mut rest) = tag.split_once(' ').unwrap_or((tag, ""));
    assert!(is_name(name), "{tag}");
    let mut attributes = Vec::new();
    let mut there = HashSet::new();
    while !rest.is_empty() {
        let (name, value) = rest.split_once("=\"").expect("an attribute has a value");
        let (value, after) = value.split_once('"').expect("a value ends");
        assert!(is_name(name) && there.insert(name), "{tag}");
        attributes.push((name.to_string(), unescaped(value)));
        rest = after.strip_prefix(' ').unwrap_or(after);
        assert!(after.is_empty() || rest.len() + 1 == after.len(), "{tag}");
    }
    Element {
        name: name.to_string(),
        attributes,
        text: String::new(),
    }
}

fn is_name(text: &str) -> bool {
    let is_letter = |letter: char| letter.is_ascii_alphanumeric() || letter == '-';
    text.starts_with(|first: char| first.is_ascii_alphabetic()) && text.chars().all(is_letter)
}

/// A text with the signs of XML that were written out.
fn unescaped(text: &str) -> String {
    assert!(!text.contains(['<', '>']), "{text}");
    let mut parts = text.split('&');
    let mut plain = parts.next().unwrap_or("").to_string();
    for part in parts {
        let (sign, rest) = part.split_once(';').expect("a sign ends");
        plain.push(match sign {
            "amp" => '&',
            "lt" => '<',
            "gt" => '>',
            "quot" => '"',
            _ => panic!("&{sign};"),
        });
        plain.push_str(rest);
    }
    plain
}

/// A box in tenths: left, top, right, bottom.
pub type Box = [i32; 4];

/// The room of a text: letters are at most 0.615 of their size wide, 0.8 high, and reach 0.25 below their line.
fn text_box(text: &Element) -> Box {
    let size = text.number("font-size");
    let width = size * 615 * text.text.chars().count() as i32 / 100;
    let [x, y] = [10 * text.number("x"), 10 * text.number("y")];
    let left = match text.get("text-anchor") {
        "" => x,
        "middle" => x - width / 2,
        "end" => x - width,
        other => panic!("anchor {other}"),
    };
    [left, y - 8 * size, left + width, y + size * 5 / 2]
}

/// The points of a line: where it goes, and what it bends to.
pub fn points(way: &str) -> Vec<[i32; 2]> {
    let letters: String = way.chars().filter(char::is_ascii_alphabetic).collect();
    assert!(letters.starts_with('M') && letters[1..].chars().all(|it| "LC".contains(it)));
    let numbers = way.split(|it: char| it == ' ' || it.is_ascii_alphabetic());
    let numbers: Vec<i32> = numbers
        .filter(|it| !it.is_empty())
        .map(|it| it.parse().expect("a whole number"))
        .collect();
    let due: usize = letters
        .chars()
        .map(|it| if it == 'C' { 6 } else { 2 })
        .sum();
    assert_eq!(numbers.len(), due, "{way}");
    numbers.chunks(2).map(|it| [it[0], it[1]]).collect()
}

/// The room of a shape with its edge, or of a line, which lies within the points that it bends to.
pub fn shape_box(shape: &Element) -> Option<Box> {
    let (points, edge) = match shape.name.as_str() {
        "rect" => {
            let [x, y] = [shape.number("x"), shape.number("y")];
            let [right, bottom] = [x + shape.number("width"), y + shape.number("height")];
            let edge = if shape.is_of("page") { 0 } else { 12 };
            (vec![[x, y], [right, bottom]], edge)
        }
        "path" => {
            let width: f64 = shape.get("stroke-width").parse().expect("a width");
            (points(shape.get("d")), (width * 5.0).ceil() as i32)
        }
        "polygon" => (points(&corners(shape)), 12),
        _ => return None,
    };
    let [across, down] = [0, 1].map(|side| points.iter().map(move |point| 10 * point[side]));
    let [left, top] = [across.clone().min()? - edge, down.clone().min()? - edge];
    Some([left, top, across.max()? + edge, down.max()? + edge])
}

/// The corners of a polygon as a line.
fn corners(polygon: &Element) -> String {
    let corners: Vec<String> = polygon
        .get("points")
        .split(' ')
        .map(|it| it.replace(',', " "))
        .collect();
    format!("M{}", corners.join("L"))
}

/// Whether two boxes have room in common.
fn overlap(one: &Box, other: &Box) -> bool {
    one[0] < other[2] && other[0] < one[2] && one[1] < other[3] && other[1] < one[3]
}

/// Whether one box lies within another.
fn is_within(one: &Box, other: &Box) -> bool {
    one[0] >= other[0] && one[1] >= other[1] && one[2] <= other[2] && one[3] <= other[3]
}

/// Checks that nothing leaves the page, that no text lies over a text and no site over a site, and that every text lies
/// within a site or outside of it.
pub fn check_room(elements: &[Element]) {
    let root = &elements[0];
    let [width, height] = [root.number("width"), root.number("height")];
    assert_eq!(root.get("viewBox"), format!("0 0 {width} {height}"));
    let page = [0, 0, 10 * width, 10 * height];
    let mut texts = Vec::new();
    let mut sites = Vec::new();
    for element in elements {
        let is_text = element.name == "text";
        let room = if is_text {
            Some(text_box(element))
        } else {
            shape_box(element)
        };
        let Some(room) = room else { continue };
        assert!(is_within(&room, &page), "outside of the page: {element:?}");
        if is_text {
            texts.push((room, element));
        } else if ["site", "taken", "done"]
            .iter()
            .any(|class| element.is_of(class))
        {
            sites.push(room);
        }
    }
    texts.sort_by_key(|(room, _)| room[1]);
    for (number, (room, text)) in texts.iter().enumerate() {
        let below = texts[number + 1..]
            .iter()
            .take_while(|(other, _)| other[1] < room[3]);
        for (other, over) in below {
            assert!(!overlap(room, other), "{text:?} over {over:?}");
        }
    }
    check_sites(&mut sites, &texts);
}

/// Checks that sites have no room in common, and that every text lies within a site or outside of it.
fn check_sites(sites: &mut [Box], texts: &[(Box, &Element)]) {
    sites.sort_unstable_by_key(|room| room[1]);
    for (number, site) in sites.iter().enumerate() {
        let below = sites[number + 1..].iter();
        for other in below.take_while(|other| other[1] < site[3]) {
            assert!(!overlap(site, other), "{site:?} over {other:?}");
        }
        for (room, text) in texts.iter().take_while(|(room, _)| room[1] < site[3]) {
            let is_apart = !overlap(room, site) || is_within(room, site);
            assert!(is_apart, "{text:?} over a site");
        }
    }
}
