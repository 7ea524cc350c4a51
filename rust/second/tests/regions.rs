//! Two regions that share one link, against answers written out by hand, those due by the words of the card, and
//! the plan of the joined sheet.

use second::{
    Answer, Exchanged, Outcome, REPORT_BYTES, Refusal, SITES, first_step, plan, region_text,
    regions, regions_text, second_step,
};
use sheets::joined::{self, Due, Joined, far_sites, joined};
use sheets::neighbours::{Broken, Case, Kind, case, every_small_pair};
use sheets::regions::TRIED;
use sheets::tried::refused;
use sheets::{Layout, Network, Random};

/// So many random pairs are tried.
const PAIRS: u64 = 4_000;

/// A list of so many places, no two alike.
fn pattern(places: usize) -> Vec<u64> {
    (0..places as u64).map(|place| u64::MAX - place).collect()
}

/// The answer with the sizes out of a list, of which nothing else may have changed.
fn with_sizes(answer: Answer, mut list: Vec<u64>) -> joined::Answer {
    let Answer { count, sum } = answer;
    assert_eq!(list[count..], pattern(list.len())[count..]);
    list.truncate(count);
    joined::Answer { sizes: list, sum }
}

/// What is answered with lists of so many places, of which nothing but the answers may change.
fn exchanged(sheets: &[Vec<u8>; 2], places: [usize; 2]) -> Due {
    let [one, other] = sheets;
    let [mut list, mut other_list] = places.map(pattern);
    match regions([one, other], [&mut list, &mut other_list]) {
        Exchanged::Answered([answer, other_answer]) => Due::Answered([
            with_sizes(answer, list),
            with_sizes(other_answer, other_list),
        ]),
        Exchanged::Refused {
            sheet,
            number,
            line,
        } => {
            assert_eq!([list, other_list], places.map(pattern));
            Due::Refused(sheet, number, line)
        }
    }
}

/// Compares the answers to a case with those due, with lists that are long enough and such as are not.
fn compare(case: &Case) -> Result<(), String> {
    let [one, other] = case.links();
    for places in [
        [one, other],
        [one + 3, other + 1],
        [one - 1, other],
        [one, other - 1],
        [one - 1, other - 1],
        [0, 0],
    ] {
        let due = case.due.with_places(places);
        let answered = exchanged(&case.sheets, places);
        if answered != due {
            return Err(format!("{case:?}: {places:?} {answered:?} {due:?}"));
        }
    }
    Ok(())
}

/// The names of the two shared sites, each as the region spells it in which it is far.
fn shared_names(case: &Case) -> Option<[&[u8]; 2]> {
    let [one, other] = &case.networks;
    let [far, other_far] = far_sites([one, other])?;
    Some([&one.names[far], &other.names[other_far]])
}

/// Compares the answers of the two steps with those of both regions together.
fn compare_steps(case: &Case, names: [&[u8]; 2]) {
    let Due::Answered(due) = &case.due else {
        panic!("the regions share a link");
    };
    let [one, other] = &case.sheets;
    let [second, first] = [one, other].map(|sheet| first_step(sheet, names).unwrap());
    let steps = [(one, first), (other, second)];
    for ((sheet, number), due) in steps.into_iter().zip(due) {
        let mut list = pattern(SITES);
        let answer = second_step(sheet, names, number, &mut list).unwrap();
        assert_eq!(with_sizes(answer, list), *due, "{case:?}");
        let mut short = pattern(answer.count - 1);
        let refused = second_step(sheet, names, number, &mut short);
        assert_eq!(refused, Err(Refusal { number: 9, line: 0 }));
        assert_eq!(short, pattern(answer.count - 1));
    }
}

/// The total in halves of a sheet and its trimmed sizes, as its report has them.
fn planned(sheet: &[u8]) -> (u64, Vec<u64>) {
    let mut buffer = [0; REPORT_BYTES];
    let Outcome::Report { length } = plan(sheet, &mut buffer) else {
        panic!("the joined sheet is refused");
    };
    let report = String::from_utf8_lossy(&buffer[..length]);
    let field = |line: &str, place: usize| line.split('\t').nth(place)?.parse().ok();
    let links = report.lines().filter(|line| line.starts_with("L\t"));
    let total = report.lines().next().and_then(|line| field(line, 1));
    let sizes = links.map(|line| field(line, 4).unwrap()).collect();
    (total.unwrap(), sizes)
}

/// Compares the answers for both regions with the plan of the joined sheet; false if that has too many sites.
fn compare_joined(case: &Case) -> bool {
    let [one, other] = &case.networks;
    let joined = joined([one, other]).expect("they share a link");
    if joined.network.names.len() > SITES {
        return false;
    }
    // With all sites first the links keep their order.
    let sheet = joined
        .network
        .sheet(Layout::SitesFirst, &mut Random::new(1));
    let (total, trimmed) = planned(&sheet);
    let Due::Answered(answers) = exchanged(&case.sheets, [SITES; 2]) else {
        panic!("refused: {case:?}");
    };
    assert_eq!(answers[0].sum + answers[1].sum, total, "{case:?}");
    for (answer, links) in answers.iter().zip(&joined.links) {
        let due: Vec<u64> = links.iter().map(|&link| trimmed[link]).collect();
        assert_eq!(answer.sizes, due, "{case:?}");
    }
    true
}

#[test]
fn answers_written_by_hand() {
    for tried in &TRIED {
        let [one, other] = tried.sheets();
        let text = regions_text([&one, &other]);
        assert_eq!(
            String::from_utf8_lossy(&text),
            String::from_utf8_lossy(&tried.text()),
            "{}",
            tried.title
        );
    }
}

#[test]
fn random_pairs() {
    let refused = refused();
    let mut joined_count = 0;
    let mut seen = Vec::new();
    for index in 0..PAIRS {
        let case = case(10, index, &refused);
        seen.push(case.kind);
        assert_eq!(compare(&case), Ok(()), "pair {index}");
        match case.kind {
            Kind::Shared => {
                let names = shared_names(&case).expect("they share a link");
                compare_steps(&case, names);
                joined_count += usize::from(compare_joined(&case));
            }
            Kind::Broken(_) => assert_eq!(case.due, Due::Refused(0, 18, 0), "pair {index}"),
            Kind::Refused => (),
        }
    }
    assert!(joined_count > 1_500);
    for broken in Broken::ALL {
        let count = seen.iter().filter(|&&kind| kind == Kind::Broken(broken));
        assert!(count.count() > 80, "{broken:?}");
    }
}

#[test]
fn every_pair_of_small_regions() {
    let mut see = |case: &Case| {
        assert!(compare_joined(case));
        compare_steps(case, [b"x", b"Y"]);
        compare(case)
    };
    assert_eq!(every_small_pair(4, false, &mut see), Ok(3 * 31 * 31));
    assert_eq!(every_small_pair(3, true, &mut see), Ok(3 * 14 * 14));
}

#[test]
fn refused_sheets() {
    let [one, other] = TRIED[0].sheets();
    for tried in refused() {
        let due = |sheet| Due::Refused(sheet, tried.number, tried.line);
        for places in [[0, 0], [3, 3]] {
            let first = exchanged(&[tried.sheet.clone(), other.clone()], places);
            assert_eq!(first, due(1), "{}", tried.title);
            let second = exchanged(&[one.clone(), tried.sheet.clone()], places);
            assert_eq!(second, due(2), "{}", tried.title);
            let both = exchanged(&[tried.sheet.clone(), Vec::new()], places);
            assert_eq!(both, due(1), "{}", tried.title);
        }
        let refusal = Refusal {
            number: tried.number,
            line: tried.line,
        };
        assert_eq!(first_step(&tried.sheet, [b"h", b"k"]), Err(refusal));
        let second = second_step(&tried.sheet, [b"h", b"k"], 1, &mut []);
        assert_eq!(second, Err(refusal));
    }
}

#[test]
fn what_one_sheet_shows_to_be_wrong() {
    let [sheet, _] = TRIED[0].sheets();
    let inner = b"network\t1\nN\ta\nN\th\nN\tk\nN\tb\nL\ta\th\t1\nL\th\tk\t1\nL\tk\tb\t1\n";
    let marked = b"network\t1\nT\th\nT\tk\nL\th\tk\t1\n";
    for (sheet, names) in [
        (&sheet[..], [&b"h"[..], b"z"]),
        (&sheet, [b"", b"h"]),
        (&sheet, [b"h", b"7"]),
        (&sheet, [b"h", b"k\n"]),
        (&sheet, [b"abcdefghijklmnopqrst", b"h"]),
        (&sheet, [b"a", b"b"]),
        (&sheet, [b"k", b"K"]),
        (inner, [b"h", b"k"]),
        (marked, [b"h", b"k"]),
    ] {
        let due = Refusal {
            number: 18,
            line: 0,
        };
        assert_eq!(first_step(sheet, names), Err(due), "{names:?}");
        // It is told before a list that is too short.
        assert_eq!(second_step(sheet, names, 1, &mut []), Err(due));
    }
    assert_eq!(first_step(&sheet, [b"K", b"h"]), Ok(6));
    // The usable size of the link is 10, and no neighbour with the same tells more.
    let above = second_step(&sheet, [b"K", b"h"], 11, &mut []);
    assert_eq!(above.map_err(|refusal| refusal.number), Err(18));
    let mut list = [0; 3];
    let answer = second_step(&sheet, [b"K", b"h"], 10, &mut list);
    assert_eq!(answer.map(|answer| answer.sum), Ok(6));
    for (text, due) in [
        (
            &b"2"[..],
            &b"region\t6\nL\th\ta\t3\nL\th\tb\t3\nL\th\tk\t2\n"[..],
        ),
        (b"11", b"refused\t18\t0\n"),
        (b"1000001", b"refused\t3\t0\n"),
        (b"007", b"refused\t12\t0\n"),
        (b"", b"refused\t12\t0\n"),
        (b"1\n", b"refused\t12\t0\n"),
    ] {
        assert_eq!(
            region_text(&sheet, [b"h", b"k"], Some(text)),
            due,
            "{text:?}"
        );
    }
    assert_eq!(region_text(&sheet, [b"h", b"k"], None), b"first\t6\n");
    assert_eq!(
        region_text(&sheet, [b"h", b"z"], Some(b"x")),
        b"refused\t18\t0\n"
    );
}

/// The smallest region that tells a number of the shared link, which has a usable size: a path over its own site.
fn stand_in(region: &Network, [near, far]: [&[u8]; 2], usable: u32, number: u64) -> Vec<u8> {
    let mut names = (0..).map(|count| format!("z{count}"));
    let is_fresh = |name: &String| {
        let mut taken = region.names.iter();
        !taken.any(|it| it.eq_ignore_ascii_case(name.as_bytes()))
    };
    let end = names.find(is_fresh).expect("there are more names");
    let [near, far] = [near, far].map(String::from_utf8_lossy);
    let sites = format!("network\t1\nN\t{end}\nN\t{near}\nN\t{far}\n");
    let links = format!("L\t{near}\t{end}\t{number}\nL\t{far}\t{near}\t{usable}\n");
    (sites + &links).into_bytes()
}

#[test]
fn a_region_is_given_the_same_for_the_same_number() {
    let refused = refused();
    let pairs = (0..PAIRS).map(|index| case(11, index, &refused));
    for case in pairs.filter(|case| case.kind == Kind::Shared) {
        let [one, other] = &case.networks;
        let names = shared_names(&case).expect("they share a link");
        let number = first_step(&case.sheets[1], names).unwrap();
        let Joined { network, links, .. } = joined([one, other]).expect("they share a link");
        let shared = links[0].iter().find(|link| links[1].contains(link));
        let usable = network.usable_sizes()[*shared.unwrap()];
        let sheets = [case.sheets[0].clone(), stand_in(one, names, usable, number)];
        let (Due::Answered([due, _]), Due::Answered([given, _])) =
            (&case.due, exchanged(&sheets, [SITES; 2]))
        else {
            panic!("refused: {case:?}");
        };
        assert_eq!(given, *due, "{case:?}");
    }
}
