//! Reports of both headings, and texts that are none.

use report::{Link, Report, Set};

const PLAN: &str = "plan 3 3\nL hub a 1 1\nL hub b 1 1\nL c hub 1 1\nN hub -\nN a a\nN b b\nN c c\n\
    X a 1 1\nX b 1 1\nX c 1 1\nP a b 1\nP a c 1\nP b c 1\n";
const WHOLE: &str = "whole 2 1\nL hub a 1 0\nL hub b 1 1\nL c hub 1 1\nN hub -\nN a a\nN b b\nN c c\n\
    X a 1 1\nX b 1 1\nX c 1 1\nQ 1\nP b c 2\n";

#[test]
fn what_reports_say() {
    let [plan, whole] = [PLAN, WHOLE].map(|text| text.replace(' ', "\t"));
    let plan = Report::read(plan.as_bytes()).unwrap();
    assert_eq!(
        (plan.total, plan.odd_pieces, plan.pairs.len()),
        (3, None, 3)
    );
    assert_eq!(plan.names, ["hub", "a", "b", "c"]);
    assert_eq!(plan.owners, [None, Some(1), Some(2), Some(3)]);
    let whole = Report::read(whole.as_bytes()).unwrap();
    assert_eq!((whole.total, whole.odd_pieces), (2, Some(1)));
    let link = |sites, carried| Link {
        sites,
        usable: 1,
        carried,
    };
    let links = [link([0, 1], 0), link([0, 2], 1), link([3, 0], 1)];
    assert_eq!(whole.links, links);
    let set = Set {
        end: 2,
        size: 1,
        count: 1,
    };
    assert_eq!(whole.sets[1], set);
    assert_eq!((whole.pairs[0].sites, whole.pairs[0].amount), ([2, 3], 2));
}

#[test]
fn texts_that_are_none() {
    for (from, to) in [
        ("plan", "span"),
        ("plan 3 3", "plan 3"),
        ("plan 3", "plan 03"),
        ("plan 3 3", "plan 3 2"),
        ("L hub a 1 1", "L hub a 1"),
        ("L hub a", "L HUB a"),
        ("N hub -", "N hub x"),
        ("X a 1 1", "X a 1 1 1"),
        ("P a b 1\n", ""),
        ("P a b 1", "P a d 1"),
        ("P b c 1\n", "P b c 1"),
        ("X c 1 1\n", "X c 1 1\nQ 0\n"),
    ] {
        assert!(PLAN.contains(from), "{from}");
        let text = PLAN.replacen(from, to, 1).replace(' ', "\t");
        assert!(Report::read(text.as_bytes()).is_err(), "{from:?} to {to:?}");
    }
    let without = WHOLE.replace("Q 1\n", "").replace(' ', "\t");
    assert!(Report::read(without.as_bytes()).is_err());
}
