//! Names looked up by number are those of the sites' own lines, and stand on the caller's sheet.

use waderarmoire::name;

#[test]
fn by_number() {
    let sheet =
        b"network\t1\nN\tHill\nT\tm\nN\tmeadow123456\nL\tHILL\tM\t4\nL\tm\tMEADOW123456\t1\n";
    assert_eq!(name(sheet, 1), b"Hill");
    assert_eq!(name(sheet, 2), b"m");
    assert_eq!(name(sheet, 3), b"meadow123456");
    assert_eq!(name(sheet, 1).as_ptr(), sheet[12..].as_ptr());
}

#[test]
fn of_no_site() {
    let sheet = b"network\t1\nN\ta\nN\tb\nL\ta\tb\t4\n";
    for number in [0, 3, 256, 257, 384, 385, usize::MAX] {
        assert_eq!(name(sheet, number), b"", "{number}");
    }
    assert_eq!(name(b"network\t1\nN\ta\n", 1), b"");
    assert_eq!(name(b"", 1), b"");
}
