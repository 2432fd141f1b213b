//! The blending step alone, on any bytes: its vectors, what it refuses, and what holds of the pixels that it stores.

use std::fs;
use std::path::Path;

use generate::steps::{self, Pixel, Step, MODES, MOST_COVERAGE, MOST_MASK, NO_COVERAGES, NO_MASKS, NO_MODES};
use generate::{masks, scenes, Random};
use reference::answer::{ACCEPTED, ILLEGAL_ARGUMENT};
use reference::blend::step;
use reference::picture::SCRATCH_NUMBERS;

fn called(s: &Step) -> (u32, Pixel) {
    step(s.mode, s.coverage, s.mask, s.source, s.destination)
}

/// Whether no colour is above its alpha.
fn is_sound(pixel: Pixel) -> bool {
    pixel.iter().all(|&channel| channel <= pixel[3])
}

#[test]
fn vectors() {
    let folder = Path::new(env!("CARGO_MANIFEST_DIR")).join("../../tests/vectors/step");
    for (name, count) in [("P02.txt", 400), ("P06.txt", 600)] {
        let cases = steps::cases(&fs::read_to_string(folder.join(name)).expect("the cases of the step"));
        assert_eq!(cases.len(), count, "{name}");
        for case in cases {
            assert_eq!(called(&case.step), (case.code, case.pixel), "{:x?}", case.step);
        }
    }
}

/// Every other number, whatever the rest is, and nothing is stored.
#[test]
fn refusals() {
    let mut random = Random::new(11);
    let modes = NO_MODES.iter().flat_map(|&mode| (0..=20).map(move |coverage| (mode, coverage, 255)));
    let coverages = MODES.iter().flat_map(|&mode| NO_COVERAGES.map(|coverage| (mode, coverage, 128)));
    let masks = MODES.iter().flat_map(|&mode| NO_MASKS.map(|mask| (mode, 16, mask)));
    for (mode, coverage, mask) in modes.chain(coverages).chain(masks) {
        let (source, destination) = (steps::pixel(&mut random), steps::pixel(&mut random));
        let refused = (ILLEGAL_ARGUMENT, destination);
        assert_eq!(step(mode, coverage, mask, source, destination), refused, "{mode:x} {coverage} {mask}");
    }
}

/// A step of every mode and coverage, many times over.
fn calls(seed: u64, times: usize) -> impl Iterator<Item = Step> {
    let mut random = Random::new(seed);
    let all = move || MODES.into_iter().flat_map(|mode| (0..=MOST_COVERAGE).map(move |coverage| (mode, coverage)));
    (0..times).flat_map(move |_| all()).map(move |(mode, coverage)| Step {
        mode,
        coverage,
        mask: steps::mask(&mut random),
        source: steps::pixel(&mut random),
        destination: steps::pixel(&mut random),
    })
}

/// With no coverage a pixel stays as it is, stray or not. Else, if the paint is sound, so is what is stored; under a mask's
/// byte of 0 that is the destination, clamped.
#[test]
fn what_is_stored_is_sound() {
    for s in calls(12, 2_000) {
        let (code, pixel) = called(&s);
        assert_eq!(code, ACCEPTED);
        if s.coverage == 0 {
            assert_eq!(pixel, s.destination);
        } else if is_sound(s.source) {
            assert!(is_sound(pixel), "{s:x?}: {pixel:x?}");
        }
        if s.coverage > 0 && s.mask == 0 {
            assert_eq!(pixel, s.destination.map(|channel| channel.min(s.destination[3])));
        }
    }
}

/// The formulas without a mask, and with the destination as it stands, as paper 01 had them.
fn as_paper_01(s: &Step) -> Pixel {
    let (source_alpha, alpha) = (i64::from(s.source[3]), i64::from(s.destination[3]));
    let (fs, fd) = match s.mode {
        0x2000 => (255, 0),
        0x2001 => (255, 255 - source_alpha),
        0x2002 => (255 - alpha, 255),
        0x2003 => (alpha, 0),
        _ => (0, source_alpha),
    };
    let k = i64::from(s.coverage);
    std::array::from_fn(|i| {
        let (c, d) = (i64::from(s.source[i]), i64::from(s.destination[i]));
        let blended = ((c * fs + d * fd + 127) / 255).min(255);
        ((blended * k + d * (16 - k) + 8) / 16) as u8
    })
}

/// Where the mask's byte is 255 and the destination sound, both are paper 01's formulas; a stray one is stored otherwise.
#[test]
fn only_stray_pixels_are_stored_otherwise() {
    let (mut stray, mut changed) = (0, 0);
    for s in calls(13, 2_000) {
        let s = Step { mask: MOST_MASK, ..s };
        let pixel = called(&s).1;
        if is_sound(s.destination) {
            assert_eq!(pixel, as_paper_01(&s), "{s:x?}");
        } else {
            stray += 1;
            changed += usize::from(pixel != as_paper_01(&s));
        }
    }
    assert!(changed > stray / 3, "{changed} of {stray}");
}

/// With a mask's byte of 255 the two formulas for the stored byte agree, for every blended byte, destination and coverage.
#[test]
fn a_full_mask_is_the_old_formula() {
    for (blended, d) in (0..=255_i64).flat_map(|blended| (0..=255).map(move |d| (blended, d))) {
        for k in 0..=16 {
            let masked = (blended * k * 255 + d * (4_080 - k * 255) + 2_040) / 4_080;
            assert_eq!(masked, (blended * k + d * (16 - k) + 8) / 16);
        }
    }
}

/// No draw of a scene meets a stray pixel: after each number of draws the whole picture is sound. Transformed paints are
/// sound too.
#[test]
fn scenes_meet_no_stray_pixel() {
    let mut pictures = 0;
    for seed in 0..300 {
        let mut random = Random::new(seed);
        let mut scene = scenes::scene(&mut random, 24, 6);
        let mask = masks::mask(&mut random, scene.width, scene.height);
        loop {
            let (mut surface, mut scratch) = (vec![0xA5; scene.surface_bytes()], vec![0; SCRATCH_NUMBERS]);
            if reference::draw(&scene.bytes(), Some(&mask), &mut surface, &mut scratch).code == ACCEPTED {
                assert!(surface.chunks(4).all(|p| is_sound([p[0], p[1], p[2], p[3]])), "seed {seed}");
                pictures += 1;
            }
            if scene.draws.pop().is_none() {
                break;
            }
        }
    }
    assert!(pictures > 500, "{pictures} pictures");
}
