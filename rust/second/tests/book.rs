//! The exercise book, against the words of its card.

use second::book;

/// The numbers of a field, parted by some byte.
fn numbers(field: &str, parted_by: char) -> Vec<u32> {
    let number = |text: &str| text.parse().expect("a number");
    field.split(parted_by).map(number).collect()
}

#[test]
fn lines_in_order() {
    let text = String::from_utf8(book()).expect("digits and marks");
    assert!(text.ends_with('\n'));
    let keys: Vec<_> = text
        .lines()
        .map(|line| {
            let fields: Vec<&str> = line.split('\t').collect();
            let [links, sizes, _] = fields[..] else {
                panic!("{line}: three fields are due");
            };
            let links: Vec<_> = links.split(',').map(|link| numbers(link, '-')).collect();
            assert!(links.is_sorted() && links.iter().all(|link| link[0] < link[1]));
            let sizes = numbers(sizes, ',');
            assert!(sizes.len() == links.len() && sizes.iter().all(|&size| size < 3));
            (links.len(), links, sizes)
        })
        .collect();
    assert!(keys.is_sorted_by(|one, next| one < next));
    for (links, count) in [(1, 3), (2, 27), (3, 432), (4, 10_125)] {
        let with = keys.iter().filter(|(many, ..)| *many == links).count();
        assert_eq!(with, count);
    }
}

#[test]
fn lines_written_by_hand() {
    let text = String::from_utf8(book()).expect("digits and marks");
    let lines: Vec<&str> = text.lines().collect();
    let first = [
        "1-2\t0\t0",
        "1-2\t1\t2",
        "1-2\t2\t4",
        "1-2,1-3\t0,0\t0",
        "1-2,1-3\t0,1\t0",
        "1-2,1-3\t0,2\t0",
        "1-2,1-3\t1,0\t0",
        "1-2,1-3\t1,1\t2",
        "1-2,1-3\t1,2\t2",
    ];
    assert_eq!(lines[..9], first);
    assert_eq!(lines[3 + 9], "1-2,2-3\t0,0\t0");
    assert_eq!(lines[30], "1-2,1-3,1-4\t0,0,0\t0");
    assert!(lines.contains(&"1-2,1-3,1-4\t1,1,1\t3"));
    assert!(lines.contains(&"1-2,1-3,1-4\t2,1,0\t2"));
    assert_eq!(lines.last(), Some(&"1-5,2-5,3-5,4-5\t2,2,2,2\t8"));
}
