//! The vectors of tests/vectors/compare, and the edges of what the program takes.

use std::fs;
use std::path::Path;

use reference::compare::{compare, printed, Comparison, Damage};

#[test]
fn vectors() {
    let folder = Path::new(env!("CARGO_MANIFEST_DIR")).join("../../tests/vectors/compare");
    let read = |name: String| fs::read_to_string(folder.join(&name)).unwrap_or_else(|e| panic!("{name}: {e}"));
    for number in 1..=20 {
        let texts = [read(format!("{number}.a")), read(format!("{number}.b"))];
        let expected = read(format!("{number}.out"));
        assert_eq!(printed([&texts[0], &texts[1]]), Ok(expected.clone()), "{number}");
        assert_eq!(printed([&texts[1], &texts[0]]), Ok(expected), "{number}, turned round");
    }
}

#[test]
fn sizes() {
    let refused = |code| Comparison { code, ..Comparison::default() };
    assert_eq!(compare(0, 1, &[], &[]), refused(0x1001));
    assert_eq!(compare(1, 1_025, &[], &[]), refused(0x1001));
    assert_eq!(compare(u32::MAX, u32::MAX, &[0; 4], &[0; 4]), refused(0x1001));
    assert_eq!(compare(1, 1, &[0; 4], &[0; 3]), refused(0x1004));
    assert_eq!(compare(1, 1, &[0; 8], &[0; 8]), refused(0x1004));
    assert_eq!(compare(1, 1, &[0; 4], &[0; 4]), Comparison { equal: 1, ..Comparison::default() });
}

/// Alpha alone, in the last pixel and in the first: only the word and the count tell the first pixel's from none.
#[test]
fn alpha_counts() {
    let mut other = [7; 16];
    other[3] = 9;
    let first = compare(2, 2, &[7; 16], &other);
    assert_eq!(first, Comparison { count: 1, width: 1, height: 1, largest: 2, ..Comparison::default() });
    other[3] = 7;
    other[15] = 0;
    let last = Comparison { count: 1, x: 1, y: 1, width: 1, height: 1, largest: 7, least: 3, ..Comparison::default() };
    assert_eq!(compare(2, 2, &[7; 16], &other), last);
}

#[test]
fn texts() {
    let good = "2 2\n00000001 00000002\n00000003 00000004\n";
    let equal = "equal 0 0 0 0 0 0 0\n".to_string();
    assert_eq!(printed([good, good]), Ok(equal));
    for (damaged, line) in [
        ("", 1),
        ("2 2", 1),
        ("2  2\n", 1),
        ("02 2\n00000001 00000002\n00000003 00000004\n", 1),
        ("0 0 2 2\n2 2\n00000001 00000002\n00000003 00000004\n", 1),
        ("refused b002 64\n", 1),
        ("4294967298 2\n", 1),
        ("2 2\n", 2),
        ("2 2\n00000001\n00000003 00000004\n", 2),
        ("2 2\n00000001 00000002 00000002\n00000003 00000004\n", 2),
        ("2 2\n00000001 0000000G\n00000003 00000004\n", 2),
        ("2 2\n00000001 0000000A\n00000003 00000004\n", 2),
        ("2 2\n00000001 00000002\n00000003 00000004", 3),
        ("2 2\n00000001 00000002\n00000003 00000004\n\n", 4),
    ] {
        assert_eq!(printed([damaged, good]), Err(Damage { picture: 0, line }), "{damaged:?}");
        assert_eq!(printed([good, damaged]), Err(Damage { picture: 1, line }), "{damaged:?}");
    }
    for (other, code) in [("0 0\n", "1001"), ("2 1025\n", "1001"), ("999999999 2\n", "1001"), ("4 1\n", "1004")] {
        assert_eq!(printed([good, other]), Ok(format!("refused {code}\n")), "{other:?}");
        assert_eq!(printed([other, good]), Ok(format!("refused {code}\n")), "{other:?}");
    }
}
