//! Why a pixel has its colour, by the library and by the reference: every pixel of small scenes, whose last pixel is the
//! drawing's, the vectors, and the offset of every edge case.

use std::fs;
use std::path::{Path, PathBuf};
use std::process::Command;

use differential::{compiled_example, rounds};
use generate::{masks, scenes, Random};
use library::explain::{self, Line, COVERED, NO_LINE, OUTSIDE, UNCOVERED};
use library::{Context, Mask, Pixel, SCRATCH_NUMBERS};
use reference::explain::Kind;
use reference::print;
use scene::Scene;

fn vectors() -> PathBuf {
    Path::new(env!("CARGO_MANIFEST_DIR")).join("../../tests/vectors")
}

fn read(path: &Path) -> Vec<u8> {
    fs::read(path).unwrap_or_else(|error| panic!("{}: {error}", path.display()))
}

fn mask_of(bytes: Option<&[u8]>) -> Mask<'_> {
    bytes.map_or(Mask::NONE, Mask::of)
}

/// A line of the reference, as the library gives it.
fn as_given(line: &reference::explain::Line) -> Line {
    let (kind, coverage, mask, paint) = match line.kind {
        Kind::Outside => (OUTSIDE, 0, None, [0; 4]),
        Kind::Uncovered => (UNCOVERED, 0, None, [0; 4]),
        Kind::Covered { coverage, mask, paint } => (COVERED, coverage as u32, mask, paint),
    };
    let unmasked = if kind == COVERED { 255 } else { 0 };
    Line {
        kind,
        before: line.before.into(),
        after: line.after.into(),
        coverage,
        masked: mask.is_some().into(),
        mask: mask.map_or(unmasked, u32::from),
        paint: paint.into(),
    }
}

/// Holds every pixel of a scene to the reference's explanation and to what the library draws. Returns how often each kind
/// of line was met, and how many had a mask's byte.
fn every_pixel(name: &str, bytes: &[u8], mask: Option<&[u8]>, width: u32, height: u32) -> [usize; 5] {
    let mut surface = vec![0x5A; 4 * width as usize * height as usize];
    let drawn =
        library::draw(&mut Context::default(), bytes, mask_of(mask), &mut surface, &mut vec![-1; SCRATCH_NUMBERS]);
    assert_eq!(drawn.code, 0, "{name}");
    let mut met = [0; 5];
    for (i, stored) in surface.chunks(4).enumerate() {
        let (x, y) = (i as u32 % width, i as u32 / width);
        let expected = reference::explain::explain(bytes, mask, x.into(), y.into()).expect("an accepted scene");
        let start = explain::explain(bytes, mask_of(mask), x, y);
        assert_eq!((start.code, start.draw, start.offset), (0, 64, 0), "{name}: ({x}, {y})");
        assert_eq!(start.pixel, expected.background.into(), "{name}: ({x}, {y})");
        let lines = explain::lines(bytes, mask_of(mask), x, y).expect("an accepted scene");
        let given: Vec<Line> = expected.lines.iter().map(as_given).collect();
        assert_eq!(lines, given, "{name}: ({x}, {y})");
        let last: [u8; 4] = lines.last().map_or(start.pixel, |line| line.after).into();
        assert_eq!(last, stored, "{name}: ({x}, {y})");
        for line in &lines {
            met[line.kind as usize] += 1;
            met[4] += line.masked as usize;
        }
    }
    met
}

/// Generated scenes of both editions: scissors, all paints, transformations, with a mask and without one.
#[test]
fn every_pixel_of_small_scenes() {
    let mut random = Random::new(909);
    let mut met = [0; 5];
    let mut explained = 0;
    for round in 0..300 * rounds() {
        let scene: Scene = scenes::scene(&mut random, 24, 12);
        let (width, height) = (scene.width, scene.height);
        let bytes = scene.bytes();
        let mask = (round % 2 == 0).then(|| masks::mask(&mut random, width, height));
        if reference::rules::scene(&bytes, mask.is_some()).is_err() {
            continue;
        }
        let found = every_pixel(&format!("round {round}"), &bytes, mask.as_deref(), width.into(), height.into());
        met.iter_mut().zip(found).for_each(|(sum, count)| *sum += count);
        explained += 1;
    }
    println!("{explained} scenes; lines outside, uncovered, covered, under a mask: {:?}", &met[1..]);
    assert_eq!(met[NO_LINE as usize], 0);
    assert!(explained >= 100 && met[1..].iter().all(|&count| count >= 1_000), "{explained} scenes, {met:?}");
}

/// The vectors of explain/, printed from the library's answers, and by the example in C.
#[test]
fn vectors_explained() {
    let example = compiled_example("explain", env!("CARGO_TARGET_TMPDIR"));
    let mut pixels = 0;
    for entry in fs::read_dir(vectors().join("explain")).expect("the folder of vectors") {
        let path = entry.expect("an entry").path();
        if path.extension().map_or(true, |extension| extension != "out") {
            continue;
        }
        let beside = path.with_extension("scene");
        let name = beside.file_name().expect("a name");
        let from = if beside.exists() { beside.clone() } else { vectors().join("draw").join(name) };
        let scene = read(&from);
        let mask = fs::read(path.with_extension("mask")).ok();
        let text = fs::read_to_string(&path).expect("a vector");
        for asked in text.split("? ").skip(1) {
            let (pixel, expected) = asked.split_once('\n').expect("a line");
            let (x, y) = pixel.split_once(' ').expect("two numbers");
            let printed = printed(&scene, mask.as_deref(), x.parse().expect("x"), y.parse().expect("y"));
            assert_eq!(printed, expected, "{} {pixel}", path.display());
            let mut program = Command::new(&example);
            program.arg(&from).args([x, y]);
            if mask.is_some() {
                program.arg(path.with_extension("mask"));
            }
            let out = program.output().expect("the example");
            assert_eq!(String::from_utf8_lossy(&out.stdout), expected, "{} {pixel}", path.display());
            pixels += 1;
        }
    }
    assert_eq!(pixels, 274);
}

/// What the explaining program prints, from the library's answers.
fn printed(scene: &[u8], mask: Option<&[u8]>, x: u32, y: u32) -> String {
    let hex = |pixel: Pixel| format!("{:02x}{:02x}{:02x}{:02x}", pixel.r, pixel.g, pixel.b, pixel.a);
    let start = explain::explain(scene, mask_of(mask), x, y);
    let lines = match explain::lines(scene, mask_of(mask), x, y) {
        Ok(lines) => lines,
        Err(refusal) => {
            assert_eq!((refusal.draws, refusal.pixel), (0, [0; 4].into()));
            return format!("refused {:04x} {} offset {}\n", refusal.code, refusal.draw, refusal.offset);
        }
    };
    let mut text = String::new();
    for (i, line) in lines.iter().enumerate() {
        let step = format!("before {} after {}", hex(line.before), hex(line.after));
        let mask = if line.masked == 1 { format!(" mask {}", line.mask) } else { String::new() };
        text += &match line.kind {
            OUTSIDE => format!("draw {i} outside {step}\n"),
            UNCOVERED => format!("draw {i} uncovered {step}\n"),
            _ => format!("draw {i} covered {step} k {}{mask} paint {}\n", line.coverage, hex(line.paint)),
        };
    }
    text + &format!("pixel {}\n", hex(lines.last().map_or(start.pixel, |line| line.after)))
}

/// The code, draw and offset of every edge case that is refused.
#[test]
fn offsets_of_the_edge_cases() {
    let edges = fs::read_to_string(vectors().join("edges.txt")).expect("the edge cases");
    let mut refused = 0;
    for line in edges.lines() {
        let words: Vec<&str> = line.split_whitespace().collect();
        let scene = read(&vectors().join(format!("draw/edge-{}.scene", words[0])));
        let code = u32::from_str_radix(words[1], 16).expect("a code");
        let start = explain::explain(&scene, Mask::NONE, 0, 0);
        assert_eq!(start.code, code, "{line}");
        if code != 0 {
            assert_eq!(format!("{} offset {}", start.draw, start.offset), words[2..5].join(" "), "{line}");
            refused += 1;
        }
    }
    assert_eq!(refused, 163);
}

/// Any numbers as pixel and draw are answered; a wrong mask comes before a pixel outside, and both after the scene.
#[test]
fn any_numbers() {
    let bytes = read(&vectors().join("draw/edge-0.scene"));
    let scene = reference::rules::scene(&bytes, false).expect("the base scene");
    let (width, height) = (scene.width, scene.height);
    let numbers = [0, 1, width - 1, width, height - 1, height, 1_023, 1_024, 65_536, u32::MAX - 1, u32::MAX];
    let short = vec![0; scene.mask_bytes() - 1];
    let white = Pixel::from([255; 4]);
    for (x, y) in numbers.iter().flat_map(|&x| numbers.map(|y| (x, y))) {
        for mask in [None, Some(&short[..])] {
            let expected = reference::explain::explain(&bytes, mask, x.into(), y.into());
            assert_eq!(printed(&bytes, mask, x, y), print::explanation(&bytes, mask, x.into(), y.into()));
            for draw in [0, 1, 2, 63, 64, 65_535, u32::MAX] {
                let line = explain::explain_draw(&bytes, mask_of(mask), x, y, draw, white);
                let there = expected.as_ref().map_or(0, |explained| explained.lines.len() as u32);
                assert_eq!(line.kind == NO_LINE, draw >= there, "({x}, {y}), draw {draw}");
                assert_eq!(line.before, white);
                if line.kind == NO_LINE {
                    assert_eq!((line.after, line.coverage, line.masked, line.mask), (white, 0, 0, 0));
                }
            }
        }
    }
    // A refused scene, whatever the mask and the pixel are.
    let broken = &bytes[..bytes.len() - 1];
    assert_eq!(printed(broken, Some(&short), u32::MAX, 0), "refused b002 64 offset 0\n");
}
