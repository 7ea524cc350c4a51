//! The proved library keeps no memory: after many plans the process has as much as after a few.

use sheets::logs::long_log;
use sheets::plans::longest_plan;
use sheets::{Layout, Names, Network, Random, SITES, Shape, Sizes};
use waderarmoire::{
    LINKS, LOG_LINES, REPORT_BYTES, judge, order, plan, ranges, region_first, regions, replay,
    whole,
};

/// The resident pages of this process.
fn resident_pages() -> usize {
    let text = std::fs::read_to_string("/proc/self/statm").expect("Linux has it");
    let pages = text.split(' ').nth(1).and_then(|pages| pages.parse().ok());
    pages.expect("the second number is that of resident pages")
}

#[test]
fn nothing_is_kept() {
    let random = &mut Random::new(1);
    let mut network = Network::random(Shape::Prufer, SITES, Sizes::Large, Names::Long, random);
    network.mark(random);
    let sheet = network.sheet(Layout::Mixed, random);
    let case = long_log(Shape::Prufer, SITES, random);
    let drawn = longest_plan(Shape::Prufer, SITES, random).expect("it has many ends");
    let mut buffer = vec![0; REPORT_BYTES];
    let [ranged, ..] = &sheets::surveys::longest()[..] else {
        panic!("there are range sheets");
    };
    let mut list = vec![0; SITES];
    let mut answers = vec![0; LOG_LINES];
    let mut lists = [[0; LINKS]; 2];
    let [one, other] = sheets::regions::TRIED[0].sheets();
    let mut run = |times| {
        for _ in 0..times {
            assert!(plan(&sheet, &mut buffer).is_ok());
            assert!(whole(&sheet, &mut buffer).is_ok());
            assert!(ranges(ranged, &mut buffer).is_ok());
            assert!(order(&sheet, &mut list).is_ok());
            assert!(replay(&case.sheet, &case.log, &mut answers).is_ok());
            let [sizes, sizes2] = &mut lists;
            assert!(regions([&one, &other], [sizes, sizes2]).is_ok());
            assert_eq!(region_first(&one, [b"h", b"k"]), Ok(6));
            assert!(judge(&drawn.sheet, &drawn.plan).is_ok());
        }
        resident_pages()
    };
    let few = run(10);
    // A few pages may come of the test itself.
    assert!(run(200) <= few + 4);
}
