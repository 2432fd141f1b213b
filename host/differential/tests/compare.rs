//! Two pictures compared, by the library and by the reference. WAYRAMESH_ROUNDS multiplies the number of cases.

use std::collections::BTreeSet;
use std::fs;
use std::path::Path;

use differential::rounds;
use generate::Random;
use library::Comparison;

/// Compares a call of both, and the call with the pictures exchanged. The buffers lie off every alignment in turn, and
/// the bytes round them differ, so that one byte too many would show.
fn check(name: &str, width: u32, height: u32, a: &[u8], b: &[u8]) -> Comparison {
    let shift = (a.len() + b.len() / 4 + width as usize) % 16;
    let padded = |bytes: &[u8], pad: u8, shift: usize| {
        let mut padded = vec![pad; shift];
        padded.extend_from_slice(bytes);
        padded.resize(shift + bytes.len() + 16, pad);
        padded
    };
    let (first, second) = (padded(a, 0x11, shift), padded(b, 0xEE, (shift + 5) % 16));
    let (left, right) = (&first[shift..][..a.len()], &second[(shift + 5) % 16..][..b.len()]);
    let answer = library::compare(width, height, left, right);
    let expected = reference::compare::compare(width, height, a, b);
    assert_eq!(numbers(&answer), expected_numbers(&expected), "{name}: {width} by {height}");
    assert_eq!(library::compare(width, height, right, left), answer, "{name}: exchanged");
    answer
}

fn numbers(c: &Comparison) -> [u32; 9] {
    [c.code, c.equal, c.count, c.x, c.y, c.width, c.height, c.largest, c.least]
}

fn expected_numbers(c: &reference::compare::Comparison) -> [u32; 9] {
    [c.code, c.equal, c.count, c.x, c.y, c.width, c.height, c.largest, c.least]
}

/// A picture, and another that differs from it in some channels of some pixels, at times in all or none.
fn pictures(random: &mut Random, width: u32, height: u32) -> [Vec<u8>; 2] {
    let mut a = vec![0; 4 * (width * height) as usize];
    random.fill_bytes(&mut a);
    let mut b = a.clone();
    match random.range(0, 7) {
        0 => {}
        1 => random.fill_bytes(&mut b),
        _ => {
            for _ in 0..random.range(1, 6) {
                let at = random.index(b.len());
                b[at] = if random.once_in(2) { b[at].wrapping_add(1) } else { random.byte() };
            }
        }
    }
    [a, b]
}

#[test]
fn small_pictures() {
    let count = 40_000 * rounds();
    let (mut equal, mut single) = (0, 0);
    for seed in 0..count {
        let mut random = Random::new(seed);
        let (width, height) = (random.range(1, 19) as u32, random.range(1, 7) as u32);
        let [a, b] = pictures(&mut random, width, height);
        let answer = check(&format!("seed {seed}"), width, height, &a, &b);
        equal += u64::from(answer.equal == 1);
        single += u64::from(answer.count == 1);
    }
    assert!(equal > count / 20 && single > count / 20, "{equal} equal, {single} with one differing pixel, of {count}");
}

/// Every channel of every pixel of a small picture, alone, by one up and by one down.
#[test]
fn every_byte_alone() {
    for (width, height) in [(1, 1), (5, 3), (16, 2), (1, 9), (33, 1)] {
        let a = vec![128; 4 * (width * height) as usize];
        for at in 0..a.len() {
            for byte in [127, 129, 0] {
                let mut b = a.clone();
                b[at] = byte;
                let answer = check("one byte", width, height, &a, &b);
                assert_eq!((answer.count, answer.least as usize), (1, at / 4));
            }
        }
    }
}

/// Sizes of any kind, and surfaces of any length.
#[test]
fn sizes_and_lengths() {
    let mut codes = BTreeSet::new();
    let sides = [0, 1, 2, 3, 8, 1_023, 1_024, 1_025, 65_536, 1 << 30, 1 << 31, u32::MAX];
    for seed in 0..20_000 * rounds() {
        let mut random = Random::new(1_000_000 + seed);
        let (width, height) = (random.pick(&sides), random.pick(&sides[..6]));
        let (width, height) = if random.once_in(2) { (width, height) } else { (height, width) };
        // What a 32-bit product would give is among the lengths.
        let wrapped = 4_u32.wrapping_mul(width).wrapping_mul(height) as usize;
        let length = |random: &mut Random| {
            let right = wrapped.min(1 << 14);
            match random.range(0, 5) {
                0 => right.saturating_sub(1),
                1 => right + 1,
                2 => random.pick(&[0, 4, right / 4, 2 * right]),
                _ => right,
            }
        };
        let (mut a, mut b) = (vec![7; length(&mut random)], vec![7; length(&mut random)]);
        if random.once_in(2) && !a.is_empty() && !b.is_empty() {
            let (i, j) = (random.index(a.len()), random.index(b.len()));
            (a[i], b[j]) = (random.byte(), random.byte());
        }
        let answer = check(&format!("seed {seed}"), width, height, &a, &b);
        codes.insert((answer.code, answer.equal));
    }
    assert_eq!(codes, BTreeSet::from([(0, 0), (0, 1), (0x1001, 0), (0x1004, 0)]));
}

#[test]
fn largest_pictures() {
    let mut random = Random::new(7);
    for (width, height) in [(1_024, 1_024), (1_024, 1), (1, 1_024), (1_023, 700)] {
        let [a, _] = pictures(&mut random, width, height);
        let mut b = a.clone();
        assert_eq!(check("equal", width, height, &a, &b).equal, 1);
        *b.last_mut().expect("a byte") ^= 0x80;
        check("the last byte", width, height, &a, &b);
        b[0] ^= 1;
        check("the first byte too", width, height, &a, &b);
        let inverse: Vec<u8> = a.iter().map(|byte| !byte).collect();
        assert_eq!(check("every byte", width, height, &a, &inverse).count, width * height);
    }
}

/// The top row of a printed picture comes first.
#[test]
fn vectors() {
    let folder = Path::new(env!("CARGO_MANIFEST_DIR")).join("../../tests/vectors/compare");
    for number in 1..=20 {
        let read = |extension: &str| {
            let text = fs::read_to_string(folder.join(format!("{number}.{extension}"))).expect("a vector");
            let mut lines = text.lines();
            let size: Vec<u32> = lines.next().expect("a size").split(' ').map(|n| n.parse().expect("a side")).collect();
            let rows: Vec<Vec<u8>> = lines
                .map(|line| {
                    line.split(' ').flat_map(|p| u32::from_str_radix(p, 16).expect("a pixel").to_be_bytes()).collect()
                })
                .collect();
            (size[0], size[1], rows.into_iter().rev().flatten().collect::<Vec<u8>>())
        };
        let ((width, height, a), (_, _, b)) = (read("a"), read("b"));
        let c = check(&format!("vector {number}"), width, height, &a, &b);
        let word = if c.equal == 1 { "equal" } else { "differ" };
        let printed =
            format!("{word} {} {} {} {} {} {} {}\n", c.count, c.x, c.y, c.width, c.height, c.largest, c.least);
        let expected = fs::read_to_string(folder.join(format!("{number}.out"))).expect("an output");
        assert_eq!(printed, expected, "{number}");
    }
}
