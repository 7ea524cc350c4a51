//! The page of a plan: the tree, its end sets and its pairs.

use crate::arcs::{Arcs, are_paired};
use crate::chips::{Chip, chips};
use crate::legend::{Entry, Legend};
use crate::network::{Kind, Network, circuits, count};
use crate::page::{Heading, finish, page_size};
use crate::svg::{Point, Svg};
use crate::table::{Column, Row, Table};
use crate::tree::{Drawing, Link, Site};

/// The space between the tree and the tables.
const BESIDE: i32 = 56;
const BELOW: i32 = 36;
/// The space between tables.
const BETWEEN_TABLES: i32 = 56;
/// Tables below a tree may be as wide as it, or as this.
const WIDTH: i32 = 560;

/// The page of the report of a network.
pub fn plan_page(network: &Network, has_arcs: bool) -> String {
    let chips = chips(network);
    let rows = if has_arcs {
        are_paired(network)
    } else {
        vec![false; network.kinds.len()]
    };
    let drawing = drawing(network, &chips);
    let layout = drawing.layout(&network.around, &rows);
    let arcs = has_arcs.then(|| Arcs::new(network, &layout));
    let tree = arcs.as_ref().map_or(layout.size, |arcs| arcs.size);
    let mut tables = vec![set_table(network, &chips)];
    if !has_arcs && !network.report.pairs.is_empty() {
        tables.push(pair_table(network));
    }
    let arranged = arrange(&tables, tree);
    let heading = heading(network);
    let legend = legend(network, &chips, has_arcs);
    finish(&heading, &legend, arranged.size, |svg, origin| {
        drawing.draw(svg, origin, &layout);
        if let Some(arcs) = &arcs {
            arcs.draw(svg, origin, network, &layout);
        }
        draw_tables(svg, origin, &tables, &arranged);
    })
}

/// The tree as it is drawn.
fn drawing<'text>(network: &Network<'text>, chips: &[Chip]) -> Drawing<'text> {
    let report = &network.report;
    let sites = report.names.iter().enumerate().map(|(site, name)| Site {
        name,
        kind: network.kinds[site],
        class: "site",
        chip: network.set[site].map(|set| chips[set]),
    });
    let links = report.links.iter().map(|link| {
        let [one, other] = link.sites.map(|site| network.set[site]);
        Link {
            carried: link.carried,
            usable: link.usable,
            colour: one
                .filter(|_| one == other)
                .and_then(|set| chips[set].colour),
            label: label(link.carried, link.usable),
            is_cut: false,
        }
    });
    Drawing {
        sites: sites.collect(),
        links: links.collect(),
        largest: network.largest(),
    }
}

/// The label of a link: what it carries of its usable size, or one number if it is full.
fn label(carried: u64, usable: u64) -> String {
    if carried == usable {
        usable.to_string()
    } else {
        format!("{carried} of {usable}")
    }
}

/// The table of the end sets.
fn set_table(network: &Network, chips: &[Chip]) -> Table {
    let report = &network.report;
    let rows = report.sets.iter().zip(chips).map(|(set, chip)| Row {
        chip: Some(*chip),
        texts: vec![
            report.names[set.end].to_string(),
            set.size.to_string(),
            set.count.to_string(),
        ],
    });
    Table {
        title: "End sets",
        columns: columns([("end", false), ("size", true), ("sites", true)]),
        rows: rows.collect(),
    }
}

/// The table of the pairs.
fn pair_table(network: &Network) -> Table {
    let report = &network.report;
    let rows = report.pairs.iter().map(|pair| {
        let [one, other] = pair.sites.map(|site| report.names[site].to_string());
        Row {
            chip: None,
            texts: vec![one, other, circuits(pair.amount)],
        }
    });
    Table {
        title: "Pairs",
        columns: columns([("end", false), ("end", false), ("circuits", true)]),
        rows: rows.collect(),
    }
}

fn columns(heads: [(&'static str, bool); 3]) -> Vec<Column> {
    heads
        .map(|(head, has_numbers)| Column { head, has_numbers })
        .into()
}

/// Where tables are put: their left upper corner, how many rows their blocks have, and the size of all with the tree.
struct Arranged {
    at: Point,
    rows: usize,
    size: Point,
}

/// Puts tables beside or below a tree, whichever fits a smaller page of 16 to 10.
fn arrange(tables: &[Table], tree: Point) -> Arranged {
    let [beside, below] = [beside(tables, tree), below(tables, tree)];
    let room = |it: &Arranged| {
        let [width, height] = page_size(it.size);
        (10 * width).max(16 * height)
    };
    if room(&beside) <= room(&below) {
        beside
    } else {
        below
    }
}

/// The most rows that a table has.
fn longest(tables: &[Table]) -> usize {
    let lengths = tables.iter().map(|table| table.rows.len());
    lengths.max().unwrap_or(0).max(1)
}

/// The width of tables side by side.
fn width(tables: &[Table], rows: usize) -> i32 {
    let widths = tables.iter().map(|table| table.width(rows));
    widths.sum::<i32>() + BETWEEN_TABLES * (tables.len() as i32 - 1)
}

/// Tables beside a tree, as high as it, or with ten rows.
fn beside(tables: &[Table], tree: Point) -> Arranged {
    let rows = Table::rows_within(tree[1]).max(10).min(longest(tables));
    let at = [tree[0] + BESIDE, 0];
    Arranged {
        at,
        rows,
        size: [
            at[0] + width(tables, rows),
            tree[1].max(Table::height(rows)),
        ],
    }
}

/// Tables below a tree, as low as they may be within the width of the page.
fn below(tables: &[Table], tree: Point) -> Arranged {
    let room = tree[0].max(WIDTH);
    let most = longest(tables);
    let (mut low, mut rows) = (0, most);
    while rows - low > 1 {
        let middle = usize::midpoint(low, rows);
        if width(tables, middle) <= room {
            rows = middle;
        } else {
            low = middle;
        }
    }
    let at = [0, tree[1] + BELOW];
    Arranged {
        at,
        rows,
        size: [
            tree[0].max(width(tables, rows)),
            at[1] + Table::height(rows),
        ],
    }
}

fn draw_tables(svg: &mut Svg, [across, down]: Point, tables: &[Table], arranged: &Arranged) {
    let mut left = across + arranged.at[0];
    for table in tables {
        table.draw(svg, [left, down + arranged.at[1]], arranged.rows);
        left += table.width(arranged.rows) + BETWEEN_TABLES;
    }
}

/// The total as it is printed, in halves, and in circuits; and what there is.
fn heading(network: &Network) -> Heading {
    let report = &network.report;
    let kind = if network.is_whole() { "whole" } else { "plan" };
    let mut parts = vec![
        count(report.names.len() as u64, "site"),
        count(report.links.len() as u64, "link"),
        count(report.pairs.len() as u64, "pair"),
    ];
    parts.extend(report.odd_pieces.map(|pieces| count(pieces, "odd piece")));
    let halves = match report.total {
        1 => "1 half".to_string(),
        total => format!("{total} halves"),
    };
    let circuits = match report.total {
        1 | 2 => format!("{} circuit", circuits(report.total)),
        total => format!("{} circuits", circuits(total)),
    };
    Heading {
        title: format!("{kind}: total {halves}, {circuits}"),
        below: parts.join(", "),
    }
}

/// The legend, with what there is on the page.
fn legend<'text>(network: &Network, chips: &[Chip], has_arcs: bool) -> Legend<'text> {
    let mut entries = site_entries(network);
    entries.extend(link_entries(network));
    entries.extend(
        chips
            .first()
            .map(|&chip| Entry::chip(chip, "end set that holds the site")),
    );
    if chips.iter().any(|chip| chip.colour.is_none()) {
        entries.push(Entry::words("grey: one site, and no colour left"));
    }
    entries.push(Entry::words(if network.is_whole() {
        "set sizes less odd pieces are the total in halves"
    } else {
        "set sizes sum to the total in halves"
    }));
    if has_arcs {
        entries.push(Entry::words("arc: a pair, with its circuits"));
    }
    Legend { entries }
}

/// The shapes of sites.
fn site_entries<'text>(network: &Network) -> Vec<Entry<'text>> {
    let shapes = [
        (Kind::End, "end"),
        (Kind::Marked, "marked end"),
        (Kind::Joint, "joint"),
    ];
    let there = shapes
        .into_iter()
        .filter(|(kind, _)| network.kinds.contains(kind));
    there
        .map(|(kind, name)| Entry::site(kind, "site", name))
        .collect()
}

/// The lines of links, and their labels.
fn link_entries<'text>(network: &Network) -> Vec<Entry<'text>> {
    let links = &network.report.links;
    let is_full = |link: &report::Link| link.carried == link.usable;
    let room = if network.is_whole() {
        "2 of 5: usable size 5, load 2"
    } else {
        "2 of 5: usable size 5, trimmed size 2; no plan fills it"
    };
    let mut entries = Vec::new();
    if links.iter().any(is_full) {
        entries.push(Entry::line(5, 5, "5: usable size 5, filled"));
    }
    if !links.iter().all(is_full) {
        entries.push(Entry::line(2, 5, room));
    }
    if links.iter().any(|link| link.carried == 0) {
        entries.push(Entry::line(0, 0, "carries nothing"));
    }
    entries.push(Entry::words("wider: carries more"));
    entries
}
