//! The blending step alone, by the library and by the reference, on any bytes and any numbers. WAYRAMESH_ROUNDS
//! multiplies the number of cases.

use std::fs;
use std::path::{Path, PathBuf};
use std::process::Command;

use differential::{compiled_example, rounds};
use generate::steps::{self, Step, MODES, MOST_COVERAGE, MOST_MASK, NO_COVERAGES, NO_MASKS, NO_MODES};
use generate::Random;

/// The library's code and pixel.
fn called(s: &Step) -> (u32, [u8; 4]) {
    let answer = library::composite(s.mode, s.coverage, s.mask, s.source.into(), s.destination.into());
    (answer.code, answer.pixel.into())
}

/// Compares a call of both, and returns its code.
fn check(s: &Step) -> u32 {
    let answer = called(s);
    assert_eq!(answer, reference::blend::step(s.mode, s.coverage, s.mask, s.source, s.destination), "{s:x?}");
    answer.0
}

/// A call on two pixels.
fn call(random: &mut Random, mode: u32, coverage: u32, mask: u32) -> Step {
    Step { mode, coverage, mask, source: steps::pixel(random), destination: steps::pixel(random) }
}

/// Every mode and every coverage, on many pixels each, stray ones among them, without a mask and with one.
#[test]
fn every_mode_and_coverage() {
    let mut random = Random::new(100_000_000);
    for mode in MODES {
        for coverage in 0..=MOST_COVERAGE {
            for _ in 0..20_000 * rounds() {
                assert_eq!(check(&call(&mut random, mode, coverage, MOST_MASK)), 0);
                let mask = steps::mask(&mut random);
                assert_eq!(check(&call(&mut random, mode, coverage, mask)), 0);
            }
        }
    }
}

/// Every byte of a mask under every coverage, for every mode.
#[test]
fn every_mask_and_coverage() {
    let mut random = Random::new(105_000_000);
    for (mask, coverage) in (0..=MOST_MASK).flat_map(|mask| (0..=MOST_COVERAGE).map(move |coverage| (mask, coverage))) {
        for mode in MODES {
            for _ in 0..40 * rounds() {
                assert_eq!(check(&call(&mut random, mode, coverage, mask)), 0);
            }
        }
    }
}

/// Every colour under every alpha of the destination, under and over pixels that make the factors' ends.
#[test]
fn every_stray_destination() {
    for (channel, alpha) in (0..=255).flat_map(|channel| (0..=255).map(move |alpha| (channel, alpha))) {
        for source in [[0; 4], [255; 4], [255, 0, 0, 0], [0, 100, 128, 128], [1, 200, 254, 254]] {
            for mode in MODES {
                for (coverage, mask) in [(0, 255), (1, 255), (8, 255), (15, 255), (16, 255), (16, 0), (8, 101)] {
                    let destination = [channel, 255 - channel, alpha, alpha];
                    assert_eq!(check(&Step { mode, coverage, mask, source, destination }), 0);
                }
            }
        }
    }
}

/// Every other mode, coverage or mask is refused, and the pixel is the destination as it was.
#[test]
fn refusals() {
    let mut random = Random::new(110_000_000);
    let any_mode = || MODES.into_iter().chain(NO_MODES);
    let any_coverage = || (0..=MOST_COVERAGE).chain(NO_COVERAGES);
    let any_mask = || [0, 1, 128, 254, 255].into_iter().chain(NO_MASKS);
    for _ in 0..2 * rounds() {
        for (mode, coverage) in any_mode().flat_map(|mode| any_coverage().map(move |coverage| (mode, coverage))) {
            for mask in any_mask() {
                let s = call(&mut random, mode, coverage, mask);
                let taken = MODES.contains(&mode) && coverage <= MOST_COVERAGE && mask <= MOST_MASK;
                assert_eq!(check(&s), if taken { 0 } else { 0x1001 }, "{s:x?}");
            }
        }
    }
    for _ in 0..100_000 * rounds() {
        let (mode, coverage, mask) = (0x1FF0 + random.bits() % 32, random.bits() % 20, random.bits() % 300);
        check(&call(&mut random, mode, coverage, mask));
        let (mode, coverage, mask) = (random.bits(), random.bits(), random.bits());
        check(&call(&mut random, mode, coverage, mask));
    }
}

/// The cases without a mask and those with one, and how many there are.
fn files() -> [(PathBuf, usize); 2] {
    let folder = Path::new(env!("CARGO_MANIFEST_DIR")).join("../../tests/vectors/step");
    [(folder.join("P02.txt"), 400), (folder.join("P06.txt"), 600)]
}

#[test]
fn vectors() {
    for (path, count) in files() {
        let cases = steps::cases(&fs::read_to_string(path).expect("the cases of the step"));
        assert_eq!(cases.len(), count);
        for case in cases {
            assert_eq!(called(&case.step), (case.code, case.pixel), "{:x?}", case.step);
        }
    }
}

/// What stands behind a case's colon.
fn result(line: &str) -> &str {
    line.split_once(" : ").expect("a case").1
}

/// examples/composite.c compiles as it stands, and prints what stands behind the colons of the vectors.
#[test]
fn c_example() {
    let program = compiled_example("composite", env!("CARGO_TARGET_TMPDIR"));
    for (path, count) in files() {
        let text = fs::read_to_string(&path).expect("the cases of the step");
        let cases = fs::File::open(path).expect("the cases of the step");
        let output = Command::new(&program).stdin(cases).output().expect("the example runs");
        assert!(output.status.success());
        let results: Vec<&str> = text.lines().filter(|line| !line.starts_with('#')).map(result).collect();
        assert_eq!(results.len(), count);
        assert_eq!(String::from_utf8_lossy(&output.stdout).lines().collect::<Vec<_>>(), results);
    }
}
