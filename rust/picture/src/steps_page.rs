//! The page of trimming step by step: small pictures in a grid.

use crate::layout::Layout;
use crate::legend::{Entry, Legend};
use crate::network::{Kind, Network};
use crate::page::{Heading, finish};
use crate::steps::{Step, steps};
use crate::svg::{Anchor, NAME, Point, SMALL, Svg};
use crate::tree::{Drawing, Link, Site};

/// The most steps that are drawn on a page.
const MOST: usize = 24;
/// The space inside a picture, its height above the tree, and the space between pictures.
const INSIDE: i32 = 16;
const CAPTION: i32 = 44;
const BETWEEN: i32 = 20;

/// The page of the steps along an order of sites.
///
/// All steps are drawn, or, where these are too many, only those that cut a link.
///
/// # Errors
///
/// If these are too many too, or do not end in the trimmed sizes.
pub fn steps_page(network: &Network, order: &[usize]) -> Result<String, String> {
    let all = steps(network, order)?;
    let is_short = all.len() <= MOST;
    let drawn: Vec<&Step> = all
        .iter()
        .filter(|step| is_short || step.cut.is_some())
        .collect();
    if drawn.len() > MOST {
        return Err(format!(
            "{} steps cut a link, and at most {MOST} steps are drawn on a page",
            drawn.len()
        ));
    }
    let panels = panels(network, &all, &drawn);
    let rows = vec![false; network.kinds.len()];
    let layout = panels[0].tree.layout(&network.around, &rows);
    let size = panel_size(&panels, layout.size);
    let columns = columns(panels.len() as i32, size);
    let heading = heading(&all, drawn.len());
    let rows = (panels.len() as i32 + columns - 1) / columns;
    let grid = [columns.min(panels.len() as i32), rows];
    let whole = [0, 1].map(|side| grid[side] * (size[side] + BETWEEN) - BETWEEN);
    let legend = legend(network);
    Ok(finish(&heading, &legend, whole, |svg, [across, down]| {
        for (panel, number) in panels.iter().zip(0..) {
            let cell = [number % columns, number / columns];
            let at = [
                across + cell[0] * (size[0] + BETWEEN),
                down + cell[1] * (size[1] + BETWEEN),
            ];
            panel.draw(svg, at, size, &layout);
        }
    }))
}

/// A small picture: its two lines, and the tree.
struct Panel<'text> {
    title: String,
    caption: String,
    tree: Drawing<'text>,
}

impl Panel<'_> {
    fn draw(&self, svg: &mut Svg, [left, top]: Point, size: Point, layout: &Layout) {
        svg.rect("frame", [left, top], size, 6);
        let at = [left + INSIDE, top + 22];
        svg.text("strong", NAME, Anchor::Start, at, &self.title);
        let at = [left + INSIDE, top + 40];
        svg.text("muted", SMALL, Anchor::Start, at, &self.caption);
        self.tree
            .draw(svg, [left + INSIDE, top + CAPTION + 6], layout);
    }
}

/// The pictures: the usable sizes, and each step.
fn panels<'text>(network: &Network<'text>, all: &[Step], drawn: &[&Step]) -> Vec<Panel<'text>> {
    let usable: Vec<u64> = network
        .report
        .links
        .iter()
        .map(|link| link.usable)
        .collect();
    let mut panels = vec![Panel {
        title: "start".to_string(),
        caption: "the usable sizes".to_string(),
        tree: tree(network, &usable, None, &[]),
    }];
    for step in drawn {
        let turn = all.len() / 2;
        let from = if step.is_inward { 0 } else { turn };
        let done: Vec<usize> = all[from..step.number - 1]
            .iter()
            .map(|it| it.site)
            .collect();
        let way = if step.is_inward { "inward" } else { "back out" };
        panels.push(Panel {
            title: format!(
                "{}. {}, {way}",
                step.number, network.report.names[step.site]
            ),
            caption: caption(network, step),
            tree: tree(network, &step.sizes, Some(step), &done),
        });
    }
    panels
}

/// What is done at a step.
fn caption(network: &Network, step: &Step) -> String {
    let Some(cut) = step.cut else {
        return match network.kinds[step.site] {
            Kind::Joint => "no link is heavy here".to_string(),
            Kind::End | Kind::Marked => "an end has no heavy link".to_string(),
        };
    };
    let sites = network.report.links[cut.link].sites;
    let [one, other] = sites.map(|site| network.report.names[site]);
    format!("{one}-{other} is heavy: {} is cut to {}", cut.from, cut.to)
}

/// The tree with its sizes as they stand at a step, with the site that is taken and those taken before.
fn tree<'text>(
    network: &Network<'text>,
    sizes: &[u64],
    step: Option<&Step>,
    done: &[usize],
) -> Drawing<'text> {
    let report = &network.report;
    let sites = report.names.iter().enumerate().map(|(site, name)| Site {
        name,
        kind: network.kinds[site],
        class: match step {
            Some(step) if step.site == site => "taken",
            _ if done.contains(&site) => "done",
            _ => "site",
        },
        chip: None,
    });
    let cut = step.and_then(|step| step.cut).map(|cut| cut.link);
    let links = report.links.iter().zip(sizes).enumerate();
    let links = links.map(|(number, (link, &size))| Link {
        carried: size,
        usable: link.usable,
        colour: None,
        label: size.to_string(),
        is_cut: cut == Some(number),
    });
    Drawing {
        sites: sites.collect(),
        links: links.collect(),
        largest: network.largest(),
    }
}

/// The size of a picture that all of them fit in.
fn panel_size(panels: &[Panel], [width, height]: Point) -> Point {
    let widths = panels.iter().map(|panel| {
        let title = NAME.width(&panel.title);
        title.max(SMALL.width(&panel.caption))
    });
    [
        widths.max().unwrap_or(0).max(width) + 2 * INSIDE,
        height + CAPTION + 6 + INSIDE / 2,
    ]
}

/// How many pictures stand side by side, so that the page is about 16 to 10.
fn columns(count: i32, [width, height]: Point) -> i32 {
    let fits = |columns: i32| {
        let rows = (count + columns - 1) / columns;
        10 * columns * width >= 16 * rows * height
    };
    (1..count).find(|&columns| fits(columns)).unwrap_or(count)
}

fn heading(all: &[Step], drawn: usize) -> Heading {
    let sites = all.len() / 2;
    let left_out = if drawn < all.len() {
        format!(
            "; {} steps that cut nothing are left out",
            all.len() - drawn
        )
    } else {
        String::new()
    };
    let cuts = all.iter().filter(|step| step.cut.is_some()).count();
    Heading {
        title: "trimming step by step".to_string(),
        below: format!(
            "{sites} sites inward, and back out: {} steps, {cuts} of them cut a link{left_out}",
            all.len()
        ),
    }
}

/// The legend.
fn legend<'text>(network: &Network) -> Legend<'text> {
    let shapes = [
        (Kind::End, "site", "end"),
        (Kind::Marked, "site", "marked end"),
        (Kind::Joint, "site", "joint"),
        (Kind::Joint, "taken", "taken"),
        (Kind::Joint, "done", "taken before"),
    ];
    let there = |kind: Kind, class: &str| class != "site" || network.kinds.contains(&kind);
    let mut entries: Vec<Entry> = Vec::new();
    for (kind, class, name) in shapes {
        if there(kind, class) {
            entries.push(Entry::site(kind, class, name));
        }
    }
    entries.push(Entry::words(
        "heavy: larger than all other links of its joint together; it is cut to their sum",
    ));
    entries.push(Entry::words(
        "the last sizes are the trimmed sizes that the planner prints",
    ));
    Legend { entries }
}
