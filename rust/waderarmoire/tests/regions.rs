//! The proved library on regions, against answers written out by hand and those due by the words of the card.

use sheets::joined::{self, Due, far_sites};
use sheets::neighbours::{Kind, case};
use sheets::regions::TRIED;
use sheets::tried::refused;
use sheets::{Edition, Layout, Names, Network, Random, SHAPES, SITES, Sizes};
use std::env;
use std::thread::Builder;
use waderarmoire::{LINKS, Refusal, RegionsRefusal, STACK_BYTES};
use waderarmoire::{region_answer, region_first, regions};

/// What is answered with lists of so many places, of which nothing but the answers may change.
fn exchanged(sheets: &[Vec<u8>; 2], places: [usize; 2]) -> Due {
    let [one, other] = sheets;
    let mut lists = places.map(|places| vec![7_777_777; places]);
    let lent = lists.each_mut().map(|list| &mut list[..]);
    let due = match regions([one, other], lent) {
        Ok(regions) => Due::Answered(regions.map(|region| joined::Answer {
            sizes: region.sizes.to_vec(),
            sum: region.sum,
        })),
        Err(RegionsRefusal {
            sheet,
            number,
            line,
        }) => Due::Refused(sheet, number, line),
    };
    let counts = match &due {
        Due::Answered(answers) => answers.each_ref().map(|answer| answer.sizes.len()),
        Due::Refused(..) => [0; 2],
    };
    for (list, count) in lists.iter().zip(counts) {
        assert!(list[count..].iter().all(|&place| place == 7_777_777));
    }
    due
}

/// The lines about two regions without names: `region`, its number, its sum, and its sizes, one a line.
fn lines(due: &Due) -> String {
    match due {
        Due::Answered(answers) => {
            let of_region = |(number, answer): (usize, &joined::Answer)| {
                let mut lines = vec![format!("region\t{number}\t{}\n", answer.sum)];
                lines.extend(answer.sizes.iter().map(|size| format!("{size}\n")));
                lines.concat()
            };
            (1..).zip(answers).map(of_region).collect()
        }
        Due::Refused(sheet, number, line) => format!("refused\t{sheet}\t{number}\t{line}\n"),
    }
}

#[test]
fn answers_written_by_hand() {
    for tried in &TRIED {
        let text = String::from_utf8(tried.text()).unwrap();
        let without_names = |line: &str| {
            let is_link = line.starts_with("L\t");
            let size = line.rsplit('\t').next().filter(|_| is_link);
            size.unwrap_or(line).to_string()
        };
        let due: String = text.split_inclusive('\n').map(without_names).collect();
        let answered = exchanged(&tried.sheets(), [LINKS; 2]);
        assert_eq!(lines(&answered), due, "{}", tried.title);
    }
}

#[test]
fn random_pairs() {
    let refused = refused();
    for index in 0..1_000 {
        let case = case(5, index, &refused);
        let [one, other] = case.links();
        for places in [[one, other], [one - 1, other], [one, other - 1], [LINKS; 2]] {
            let answered = exchanged(&case.sheets, places);
            assert_eq!(answered, case.due.with_places(places), "pair {index}");
        }
        if let (Kind::Shared, Due::Answered(due)) = (case.kind, &case.due) {
            let [here, there] = &case.networks;
            let [far, other_far] = far_sites([here, there]).unwrap();
            let names = [&here.names[far][..], &there.names[other_far]];
            for (region, due) in due.iter().enumerate() {
                let number = region_first(&case.sheets[1 - region], names).unwrap();
                let mut list = [0; LINKS];
                let given = region_answer(&case.sheets[region], names, number, &mut list).unwrap();
                assert_eq!(given.sizes, due.sizes, "pair {index}");
                assert_eq!(given.sum, due.sum, "pair {index}");
            }
        }
    }
}

#[test]
fn refused_steps() {
    let [sheet, _] = TRIED[0].sheets();
    let told = |number, line| Refusal { number, line };
    for tried in refused() {
        let due = told(tried.number, tried.line);
        assert_eq!(region_first(&tried.sheet, [b"h", b"k"]), Err(due));
        let answer = region_answer(&tried.sheet, [b"h", b"k"], 1, &mut []);
        assert_eq!(answer, Err(due));
    }
    for names in [[&b"h"[..], b"z"], [b"a", b"b"], [b"k", b"K"], [b"", b"h"]] {
        assert_eq!(region_first(&sheet, names), Err(told(18, 0)));
        assert_eq!(region_answer(&sheet, names, 1, &mut []), Err(told(18, 0)));
    }
    assert_eq!(region_first(&sheet, [b"K", b"h"]), Ok(6));
    let mut short = [5; 2];
    let answer = region_answer(&sheet, [b"k", b"H"], 1, &mut short);
    assert_eq!(answer, Err(told(9, 0)));
    assert_eq!(short, [5; 2]);
}

/// Two regions of as many sites as a sheet may have, their trees of one shape.
fn largest_pair(shape: sheets::Shape) -> [Vec<u8>; 2] {
    [0, 1].map(|region| {
        let random = &mut Random::new(1);
        let mut network = Network::random(shape, SITES - 1, Sizes::Large, Names::Counted, random);
        network.edition = Edition::Two;
        let own = ["x", "y"][region];
        for name in &mut network.names {
            name.insert(0, own.as_bytes()[0]);
        }
        network.names.push(["ys0", "xs0"][region].into());
        network.names[0] = format!("{own}s0").into();
        network.marks.push(false);
        network.links.push([0, SITES - 1]);
        network.sizes.push(1_000);
        network.reserves.push(None);
        network.sheet(Layout::SitesFirst, random)
    })
}

/// The largest regions of every shape, in threads with little stack. The variable `STACK` sets another number of
/// bytes: the least with which this test passes is what two regions, and each of the two steps, need.
#[test]
fn little_stack() {
    let given = env::var("STACK").map(|text| text.parse().expect("a number of bytes"));
    let stack = given.unwrap_or(STACK_BYTES);
    for shape in SHAPES {
        let sheets = largest_pair(shape);
        let alone = exchanged(&sheets, [LINKS; 2]);
        assert!(matches!(alone, Due::Answered(_)));
        let steps = move || {
            let names = [&b"xs0"[..], b"ys0"];
            let number = region_first(&sheets[1], names).unwrap();
            let mut list = vec![0; LINKS];
            let sum = region_answer(&sheets[0], names, number, &mut list).map(|region| region.sum);
            (exchanged(&sheets, [LINKS; 2]), sum)
        };
        let (answered, sum) = Builder::new()
            .stack_size(stack)
            .spawn(steps)
            .unwrap()
            .join()
            .unwrap();
        assert_eq!(answered, alone);
        assert!(matches!(answered, Due::Answered([one, _]) if Ok(one.sum) == sum));
    }
}
