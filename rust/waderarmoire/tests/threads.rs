//! The proved library in threads: with little stack, and many at once.

use sheets::{Edition, Layout, Names, Network, Random, SHAPES, SITES, SIZE, Shape, Spelling};
use std::env;
use std::thread::{self, Builder};
use waderarmoire::{REPORT_BYTES, STACK_BYTES, order, plan, ranges, whole};

/// The sheet of a tree of a shape, its sites in the order of the shape or the other way round, and then
/// every third one marked; every second link has a reserve.
fn sheet(shape: Shape, count: usize, seed: u64, turned: bool) -> Vec<u8> {
    let mut random = Random::new(seed);
    let mut links = shape.links(count, &mut random);
    if turned {
        for site in links.iter_mut().flatten() {
            *site = count - 1 - *site;
        }
    }
    let size = |_| random.below(SIZE as usize + 1) as u32;
    let sizes: Vec<u32> = (1..count).map(size).collect();
    let reserve = |(link, size): (usize, &u32)| (link % 2 == 1).then_some(size / 3);
    let network = Network {
        edition: Edition::with_sites(count),
        names: Names::Counted.list(count, &mut random),
        marks: (0..count).map(|site| turned && site % 3 == 1).collect(),
        links,
        reserves: sizes.iter().enumerate().map(reserve).collect(),
        sizes,
        spelling: Spelling::AsGiven,
    };
    network.sheet(Layout::SitesFirst, &mut random)
}

/// The two reports of a sheet, and its order.
type Answers = ([Vec<u8>; 2], Vec<usize>);

/// The answers on a sheet, worked out where this is called, with buffers of so many bytes.
fn answers(sheet: &[u8], room: [usize; 2]) -> Answers {
    let mut halves = vec![0; room[0]];
    let mut circuits = vec![0; room[1]];
    let mut list = vec![0; SITES];
    let halves = plan(sheet, &mut halves).expect("a tree").to_vec();
    let circuits = whole(sheet, &mut circuits).expect("a tree").to_vec();
    let order = order(sheet, &mut list).expect("a tree").to_vec();
    ([halves, circuits], order)
}

/// Plans a sheet in threads with so many bytes of stack, into buffers for every report and into
/// such that have just the bytes of these; too few bytes of stack end the whole test.
fn in_thread(sheet: Vec<u8>, stack: usize) {
    let alone = answers(&sheet, [REPORT_BYTES; 2]);
    let lengths = [alone.0[0].len(), alone.0[1].len()];
    let both = move || (answers(&sheet, [REPORT_BYTES; 2]), answers(&sheet, lengths));
    let thread = Builder::new().stack_size(stack).spawn(both);
    assert_eq!(thread.unwrap().join().unwrap(), (alone.clone(), alone));
}

/// A sheet with every site marked, and one with every third.
fn marked(sheet: &[u8]) -> [Vec<u8>; 2] {
    [1, 3].map(|step| {
        let mut sites = 0;
        let lines = sheet.split_inclusive(|&byte| byte == b'\n');
        let lines = lines.map(|line| match line.strip_prefix(b"N\t") {
            Some(name) => {
                sites += 1;
                let letter: &[u8] = if sites % step == 0 { b"T\t" } else { b"N\t" };
                [letter, name].concat()
            }
            None => line.to_vec(),
        });
        lines.collect::<Vec<_>>().concat()
    })
}

/// The largest trees of every shape, numbered both ways, without marks and with some. The variable
/// `STACK` sets another number of bytes: the least with which this test passes is what a plan, in
/// halves or in whole circuits, and an order need.
#[test]
fn little_stack() {
    let given = env::var("STACK").map(|text| text.parse().expect("a number of bytes"));
    let stack = given.unwrap_or(STACK_BYTES);
    for shape in SHAPES {
        for turned in [false, true] {
            let plain = sheet(shape, SITES, 1, turned);
            for sheet in marked(&plain) {
                in_thread(sheet, stack);
            }
            in_thread(plain, stack);
        }
    }
    in_thread(sheet(Shape::Star, 4, 1, false), stack);
}

/// The range sheets with the longest reports, of every shape. `STACK` sets another number of bytes here too.
#[test]
fn little_stack_for_ranges() {
    let given = env::var("STACK").map(|text| text.parse().expect("a number of bytes"));
    let stack = given.unwrap_or(STACK_BYTES);
    let mut longest = 0;
    for sheet in sheets::surveys::longest() {
        let report = |sheet: &[u8]| {
            let mut buffer = vec![0; REPORT_BYTES];
            ranges(sheet, &mut buffer).map(<[u8]>::to_vec)
        };
        let alone = report(&sheet);
        longest = longest.max(alone.as_ref().map_or(0, Vec::len));
        let thread = Builder::new()
            .stack_size(stack)
            .spawn(move || report(&sheet));
        assert_eq!(thread.unwrap().join().unwrap(), alone);
    }
    assert_eq!(longest, 23_005);
}

/// Threads that plan at once get the answers that one alone gets.
#[test]
fn many_at_once() {
    let sheets: Vec<_> = (1..=8)
        .map(|seed| sheet(Shape::Drawn, SITES, seed, false))
        .collect();
    let alone: Vec<_> = sheets
        .iter()
        .map(|sheet| answers(sheet, [REPORT_BYTES; 2]))
        .collect();
    thread::scope(|scope| {
        for (sheet, alone) in sheets.iter().zip(&alone) {
            scope.spawn(move || {
                for _ in 0..50 {
                    assert_eq!(&answers(sheet, [REPORT_BYTES; 2]), alone);
                }
            });
        }
    });
}
