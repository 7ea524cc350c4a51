//! Pictures of many sheets: nothing leaves the page, no text lies over another, and all that they tell is what the planner
//! prints.

mod seen;

use picture::{Failure, Page, draw};
use report::Report;
use seen::{Element, check_room, elements, points, shape_box};
use sheets::{Layout, Names, Network, Random, SIZES, Shape, Sizes};
use waderarmoire::REPORT_BYTES;

/// Trees: their shapes, how many sites they have, and how sizes and names are drawn.
const TREES: [(Shape, usize, Sizes, Names); 13] = [
    (Shape::Path, 2, Sizes::Extreme, Names::Counted),
    (Shape::Path, 2, Sizes::Large, Names::Long),
    (Shape::Path, 3, Sizes::Small, Names::Any),
    (Shape::Path, 384, Sizes::Large, Names::Long),
    (Shape::Star, 384, Sizes::Large, Names::Long),
    (Shape::Star, 9, Sizes::Ones, Names::Counted),
    (Shape::Broom, 384, Sizes::Extreme, Names::Long),
    (Shape::Broom, 20, Sizes::Scaled, Names::Any),
    (Shape::Prufer, 40, Sizes::Small, Names::Counted),
    (Shape::Attached, 384, Sizes::Scaled, Names::Long),
    (Shape::Prufer, 384, Sizes::Wide, Names::Any),
    (Shape::Attached, 40, Sizes::Sparse, Names::Counted),
    (Shape::Binary, 63, Sizes::Tiny, Names::Counted),
];

/// Sheets that are accepted: the examples, and trees of many shapes and sizes.
fn sheets() -> Vec<(String, Vec<u8>)> {
    let mut sheets = examples();
    let random = &mut Random::new(29);
    let mut add = |name: &str, network: Network, random: &mut Random| {
        sheets.push((name.to_string(), network.sheet(Layout::SitesFirst, random)));
    };
    for (shape, count, sizes, names) in TREES {
        let network = Network::random(shape, count, sizes, names, random);
        add(&format!("{shape:?} {count} {sizes:?}"), network, random);
    }
    for (count, times) in [(12, 1), (40, 3), (384, 4), (384, 1)] {
        let mut network =
            Network::random(Shape::Attached, count, Sizes::Small, Names::Long, random);
        network.marks = network
            .marks
            .iter()
            .map(|_| random.once_in(times))
            .collect();
        add(
            &format!("{count} sites, one in {times} marked"),
            network,
            random,
        );
    }
    for sizes in SIZES {
        let mut network = Network::random(Shape::Prufer, 30, sizes, Names::Any, random);
        network.mark(random);
        network.hold_back(random);
        add(&format!("marks and reserves, {sizes:?}"), network, random);
    }
    sheets
}

/// The examples that are accepted.
fn examples() -> Vec<(String, Vec<u8>)> {
    let folder = concat!(env!("CARGO_MANIFEST_DIR"), "/../../examples");
    let files = std::fs::read_dir(folder).expect("there are examples");
    let mut examples = Vec::new();
    for file in files.map(|file| file.expect("a file").path()) {
        let is_sheet = file.extension().is_some_and(|it| it == "sheet");
        if is_sheet && !file.ends_with("ring.sheet") {
            let name = file.display().to_string();
            examples.push((name, std::fs::read(file).expect("a sheet")));
        }
    }
    assert!(examples.len() >= 12);
    examples
}

/// A picture, which must be the same each time and well formed, with nothing outside of it and no text over another.
fn picture(sheet: &[u8], page: Page) -> Result<Vec<Element>, Failure> {
    let picture = draw(sheet, page)?;
    assert_eq!(draw(sheet, page).as_ref(), Ok(&picture));
    let elements = elements(&picture);
    check_room(&elements);
    Ok(elements)
}

/// A number of halves in circuits.
fn circuits(halves: u64) -> String {
    let half = if halves % 2 == 1 { "½" } else { "" };
    match halves / 2 {
        0 if halves == 1 => half.to_string(),
        whole => format!("{whole}{half}"),
    }
}

/// What stands on a page whatever the sheet is.
const WORDS: [&str; 5] = ["end", "size", "sites", "circuits", "Pairs"];

/// A picture of a plan beside the report that it is drawn from.
struct Seen<'text> {
    sheet: &'text [u8],
    report: Report<'text>,
    elements: Vec<Element>,
}

impl Seen<'_> {
    fn texts(&self) -> Vec<&str> {
        let texts = self.elements.iter().filter(|it| it.name == "text");
        texts.map(|it| it.text.as_str()).collect()
    }

    fn of_class(&self, class: &str) -> Vec<&Element> {
        let found = self.elements.iter().filter(|it| it.is_of(class));
        found.filter(|it| it.name != "text").collect()
    }

    /// The number of the end set that holds a site.
    fn set(&self, site: usize) -> Option<String> {
        let owner = self.report.owners[site]?;
        let mut sets = self.report.sets.iter();
        sets.position(|set| set.end == owner)
            .map(|set| (set + 1).to_string())
    }

    /// The texts of the heading, the labels of the links in their order, and each site with the number of its set.
    fn check_tree(&self) -> usize {
        let report = &self.report;
        let kind = if report.odd_pieces.is_some() {
            "whole"
        } else {
            "plan"
        };
        let halves = if report.total == 1 { "half" } else { "halves" };
        let total = format!(
            "{kind}: total {} {halves}, {} circuit",
            report.total,
            circuits(report.total)
        );
        let texts = self.texts();
        assert!(texts[0].starts_with(&total), "{} for {total}", texts[0]);
        if let Some(pieces) = report.odd_pieces {
            assert!(texts[1].contains(&format!("{pieces} odd piece")));
        }
        let mut due: Vec<String> = Vec::new();
        for link in &report.links {
            due.push(match (link.carried, link.usable) {
                (carried, usable) if carried == usable => usable.to_string(),
                (carried, usable) => format!("{carried} of {usable}"),
            });
        }
        for (site, name) in report.names.iter().enumerate() {
            due.extend(self.set(site));
            due.push((*name).to_string());
        }
        assert_eq!(texts[2..2 + due.len()], due);
        2 + due.len()
    }

    /// The rows of the tables, of which the first text is this one.
    fn check_tables(&self, first: usize, has_pairs: bool) {
        let report = &self.report;
        let mut due: Vec<String> = Vec::new();
        for (set, number) in report.sets.iter().zip(1..) {
            let name = report.names[set.end].to_string();
            due.extend([
                number.to_string(),
                name,
                set.size.to_string(),
                set.count.to_string(),
            ]);
        }
        for pair in report.pairs.iter().filter(|_| has_pairs) {
            due.extend(pair.sites.map(|site| report.names[site].to_string()));
            due.push(circuits(pair.amount));
        }
        due.retain(|text| !WORDS.contains(&text.as_str()));
        let texts = self.texts();
        assert_eq!(texts[first], "End sets");
        let rows = texts[first + 1..]
            .iter()
            .filter(|text| !WORDS.contains(text));
        let rows: Vec<&str> = rows.take(due.len()).copied().collect();
        assert_eq!(rows, due);
    }

    /// Between the tree and the tables, names of ends and the amounts of all pairs; returns where the tables begin.
    fn check_arcs(&self, first: usize) -> usize {
        let report = &self.report;
        let texts = self.texts();
        let last = texts.iter().position(|text| *text == "End sets");
        let last = last.expect("there is a table");
        let (names, amounts) = texts[first..last].split_at(last - first - report.pairs.len());
        for name in names {
            let ends = report.pairs.iter().flat_map(|pair| pair.sites);
            assert!(ends.map(|site| report.names[site]).any(|it| it == *name));
        }
        let mut amounts = amounts.to_vec();
        let mut due: Vec<String> = report
            .pairs
            .iter()
            .map(|pair| circuits(pair.amount))
            .collect();
        amounts.sort_unstable();
        due.sort_unstable();
        assert_eq!(amounts, due);
        assert_eq!(self.of_class("arc").len(), report.pairs.len());
        last
    }

    /// Each site has the shape of what it is.
    fn check_shapes(&self) {
        let lines = self.sheet.split(|&byte| byte == b'\n');
        let letters: Vec<u8> = lines
            .filter(|line| line.starts_with(b"N\t") || line.starts_with(b"T\t"))
            .map(|line| line[0])
            .collect();
        let sites = self.of_class("site");
        for (site, letter) in letters.iter().enumerate() {
            let links = self
                .report
                .links
                .iter()
                .filter(|link| link.sites.contains(&site));
            let seen = (sites[site].name.as_str(), sites[site].get("rx"));
            let due = match (letter, links.count()) {
                (b'T', _) => ("polygon", ""),
                (_, 1) => ("rect", "13"),
                _ => ("rect", "2"),
            };
            assert_eq!(seen, due, "site {site}");
        }
    }

    /// Each link goes from one of its sites to the other, is the wider the more it carries, and shows its room just if it
    /// has some.
    fn check_links(&self) {
        let links = &self.report.links;
        let boxes: Vec<[i32; 4]> = self
            .of_class("site")
            .iter()
            .filter_map(|it| shape_box(it))
            .collect();
        let lines = self.of_class("link");
        let mut widths: Vec<(u64, u64)> = Vec::new();
        for (link, line) in links.iter().zip(&lines) {
            let way = points(line.get("d"));
            let [from, to] = [way[0], way[way.len() - 1]].map(|point| point.map(|it| 10 * it));
            let joins = |one: usize, other: usize| {
                let [[_, top, right, bottom], [left, high, _, low]] = [boxes[one], boxes[other]];
                from == [right - 12, i32::midpoint(top, bottom)]
                    && to == [left + 12, i32::midpoint(high, low)]
            };
            let [one, other] = link.sites;
            assert!(joins(one, other) || joins(other, one), "{link:?} {way:?}");
            let tenths = line.get("stroke-width").replace('.', "");
            widths.push((link.carried, tenths.parse().expect("a width")));
        }
        widths.sort_unstable();
        for pair in widths.windows(2) {
            assert!(pair[0].1 <= pair[1].1 && (pair[0].0 != pair[1].0 || pair[0].1 == pair[1].1));
        }
        let with_room = links
            .iter()
            .filter(|link| link.carried < link.usable)
            .count();
        let in_legend = usize::from(with_room > 0);
        assert_eq!(self.of_class("room").len(), with_room + in_legend);
    }
}

/// Checks the picture of a plan.
fn check_plan(name: &str, sheet: &[u8], is_whole: bool, has_arcs: bool) {
    let mut buffer = vec![0; REPORT_BYTES];
    let planner = if is_whole {
        waderarmoire::whole
    } else {
        waderarmoire::plan
    };
    let report = planner(sheet, &mut buffer).expect("the sheet is accepted");
    let report = Report::read(report).expect("a report");
    let page = Page::Plan { is_whole, has_arcs };
    let elements = picture(sheet, page).unwrap_or_else(|failure| panic!("{name}: {failure}"));
    let seen = Seen {
        sheet,
        report,
        elements,
    };
    let behind = seen.check_tree();
    let behind = if has_arcs {
        seen.check_arcs(behind)
    } else {
        behind
    };
    seen.check_tables(behind, !has_arcs);
    seen.check_shapes();
    seen.check_links();
}

#[test]
fn plans_in_halves() {
    for (name, sheet) in sheets() {
        check_plan(&name, &sheet, false, false);
    }
}

#[test]
fn plans_in_whole_circuits() {
    for (name, sheet) in sheets() {
        check_plan(&name, &sheet, true, false);
    }
}

#[test]
fn pairs_as_arcs() {
    for (name, sheet) in sheets() {
        check_plan(&name, &sheet, false, true);
        check_plan(&name, &sheet, true, true);
    }
}

/// The sizes of the links in each of the small pictures of a page.
fn panels(elements: &[Element], links: usize) -> Vec<Vec<u64>> {
    let is_label = |it: &&Element| {
        it.name == "text" && it.get("text-anchor") == "end" && it.get("font-size") == "11"
    };
    let labels = elements.iter().filter(is_label);
    let sizes: Vec<u64> = labels.map(|it| it.text.parse().expect("a size")).collect();
    sizes.chunks(links).map(<[u64]>::to_vec).collect()
}

/// Checks the sizes of the small pictures of a page: they begin with the usable sizes and end in the trimmed ones, and at
/// most one changes at a time, which gets less. Of a tree of more than 12 sites one changes each time.
fn check_steps(name: &str, sizes: &[Vec<u64>], report: &Report) {
    let usable = report.links.iter().map(|link| link.usable);
    let trimmed = report.links.iter().map(|link| link.carried);
    assert!(usable.eq(sizes[0].iter().copied()), "{name}");
    let last = &sizes[sizes.len() - 1];
    assert!(trimmed.eq(last.iter().copied()), "{name}");
    let sites = report.names.len();
    assert!(sites > 12 || sizes.len() == 2 * sites + 1, "{name}");
    for pair in sizes.windows(2) {
        let links = 0..last.len();
        let changed: Vec<usize> = links.filter(|&it| pair[0][it] != pair[1][it]).collect();
        assert!(
            changed.iter().all(|&it| pair[1][it] < pair[0][it]),
            "{name}"
        );
        let count = changed.len();
        assert!(count == 1 || count == 0 && sites <= 12, "{name}");
    }
}

#[test]
fn steps() {
    let mut drawn = 0;
    for (name, sheet) in sheets() {
        let mut buffer = vec![0; REPORT_BYTES];
        let report = waderarmoire::plan(&sheet, &mut buffer).expect("the sheet is accepted");
        let report = Report::read(report).expect("a report");
        let elements = match picture(&sheet, Page::Steps) {
            Ok(elements) => elements,
            Err(Failure::Other(what)) if what.contains("at most 24 steps are drawn") => continue,
            Err(failure) => panic!("{name}: {failure}"),
        };
        drawn += 1;
        check_steps(&name, &panels(&elements, report.links.len()), &report);
    }
    assert!(drawn > 20, "{drawn} pages of steps");
}

/// A refused sheet has no picture.
#[test]
fn refused() {
    for (_, sheet, number, line) in [
        (
            "a ring",
            &b"network\t1\nN\ta\nN\tb\nL\ta\tb\t1\nL\tb\ta\t1\n"[..],
            7,
            5,
        ),
        ("nothing", &b""[..], 1, 0),
        ("one site", &b"network\t1\nN\ta\n"[..], 8, 0),
    ] {
        for page in [
            Page::Plan {
                is_whole: true,
                has_arcs: false,
            },
            Page::Steps,
        ] {
            let refusal = waderarmoire::Refusal { number, line };
            assert_eq!(draw(sheet, page), Err(Failure::Refused(refusal)));
        }
    }
}
