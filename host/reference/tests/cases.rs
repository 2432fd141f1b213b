//! The paper's bench cases, each at the reference's own functions.

use reference::answer::{BAD_CHECKSUM, BAD_LENGTH, ILLEGAL_ARGUMENT, NO_DRAW, OUT_OF_MEMORY, UNSUPPORTED_IMAGE_FORMAT};
use reference::blend::{composite, Blend, UNMASKED};
use reference::coverage::{coverage, FillRule};
use reference::paint::{channel_byte, premultiply, LinearGradient, Ramp, Spread, Stop};
use reference::path::{cut, walk, Matrix, Point};
use reference::picture::SCRATCH_NUMBERS;
use reference::{draw, file, print, redraw, rules, Answer, Fault, Rectangle};
use scene::{Draw, Path, Scene};

const RED: [f32; 4] = [1.0, 0.0, 0.0, 1.0];
const BLUE: [f32; 4] = [0.0, 0.0, 1.0, 1.0];

fn square(side: i16) -> Path {
    Path::new().rectangle(0, 0, side, side)
}

fn translation(tx: f32) -> Matrix {
    Matrix::new([1.0, 0.0, 0.0, 1.0, tx, 0.0])
}

/// The coverage of pixel (x, 0) by a path moved by tx.
fn covered(path: &Path, tx: f32, rule: FillRule, x: i64) -> i64 {
    let walked = walk(&path.segments, &path.coordinates, &translation(tx)).expect("an allowed path");
    coverage(&walked.edges, rule, x, 0)
}

fn drawn(scene: &Scene) -> Vec<u8> {
    let mut surface = vec![0x5A; scene.surface_bytes()];
    let answer = draw(&scene.bytes(), None, &mut surface, &mut vec![7; SCRATCH_NUMBERS]);
    assert_eq!(answer.code, 0);
    surface
}

#[test]
fn c1_half_a_pixel() {
    let k = [0, 1, 2].map(|x| covered(&square(1), 0.5, FillRule::EvenOdd, x));
    assert_eq!(k, [8, 8, 0]);
    assert_eq!(composite(Blend::SrcOver, [255; 4], [0, 0, 0, 255], 8, UNMASKED), [128, 128, 128, 255]);
}

#[test]
fn c2_an_eighth_of_a_pixel() {
    assert_eq!([0, 1].map(|x| covered(&square(1), 0.125, FillRule::EvenOdd, x)), [16, 0]);
}

#[test]
fn c3_twice_round() {
    let twice = square(1).rectangle(0, 0, 1, 1);
    assert_eq!(covered(&twice, 0.0, FillRule::EvenOdd, 0), 0);
    assert_eq!(covered(&twice, 0.0, FillRule::NonZero, 0), 16);
}

#[test]
fn c4_source_over() {
    assert_eq!(composite(Blend::SrcOver, [100, 0, 0, 128], [200, 0, 0, 255], 16, UNMASKED)[0], 200);
}

#[test]
fn c5_premultiply() {
    assert_eq!(premultiply(255, 128), 128);
}

#[test]
fn c6_channels() {
    assert_eq!([0.5, 1.0, -1.0].map(channel_byte), [128, 255, 0]);
    for c in 0..=255_u8 {
        assert_eq!(channel_byte(f32::from(c) / 255.0), c);
    }
}

#[test]
fn c7_linear() {
    let gradient = LinearGradient::new([0.0, 0.0, 4.0, 0.0]);
    let ramp = Ramp::new(&[], false);
    assert_eq!((gradient.at(0, 0), gradient.at(3, 0)), (8_192, 57_344));
    assert_eq!(ramp.at(8_192), [32, 32, 32, 255]);
    assert_eq!(ramp.at(57_344), [223, 223, 223, 255]);
}

#[test]
fn c8_spreads() {
    let mapped = [Spread::Pad, Spread::Repeat, Spread::Reflect].map(|spread| spread.map(-8_192));
    assert_eq!(mapped, [-8_192, 57_344, 8_192]);
}

#[test]
fn c9_two_stops_at_zero() {
    let stops = [RED, BLUE].map(|color| Stop { offset: 0.0, color });
    let ramp = Ramp::new(&stops, false);
    assert_eq!(ramp.at(-1), [255, 0, 0, 255]);
    assert_eq!(ramp.at(0), [0, 0, 255, 255]);
}

#[test]
fn c10_quad() {
    let hull = [(0, 0), (256, 512), (512, 0)].map(|(x, y)| Point { x, y });
    assert_eq!(cut(&hull, 8), Point { x: 256, y: 256 });
}

#[test]
fn c11_halves_of_a_unit() {
    let moved = [1.0 / 512.0, -1.0 / 512.0].map(|tx| translation(tx).surface_point(Point::default()).x);
    assert_eq!(moved, [1, 0]);
}

#[test]
fn c12_the_two_by_one_scene() {
    let bytes = Scene::new(2, 1, [0, 0, 0, 255]).bytes();
    assert_eq!(file::checksum(0, &bytes[..file::PAYLOAD]), (65_283, 64_079));
    assert_eq!(print::drawing(&bytes, None), "2 1\n000000ff 000000ff\n");
}

#[test]
fn a_square_turned_blue() {
    let of = |color| {
        let mut scene = Scene::new(4, 4, [0, 0, 0, 255]);
        scene.draws.push(Draw { color, path: square(2), ..Draw::default() });
        scene
    };
    let (old, new) = (of(RED), of(BLUE));
    let mut surface = drawn(&old);
    let answer = redraw(&old.bytes(), &new.bytes(), None, &mut surface, &mut vec![7; SCRATCH_NUMBERS]);
    assert_eq!(answer, Answer::accepted(Rectangle { x: 0, y: 0, width: 3, height: 3 }));
    assert_eq!(surface, drawn(&new));
}

fn fault_of(scene: &Scene) -> Result<(), Fault> {
    rules::scene(&scene.bytes(), false).map(|_| ())
}

/// A one-pixel scene with this path as its only draw.
fn with_path(path: Path) -> Scene {
    let mut scene = Scene::new(1, 1, [0; 4]);
    scene.draws.push(Draw { path, ..Draw::default() });
    scene
}

fn illegal(place: usize) -> Result<(), Fault> {
    Err(Fault { code: ILLEGAL_ARGUMENT, draw: 0, offset: scene::file_offset(0, place) })
}

#[test]
fn segments_128_and_129() {
    let full = with_path((0..128).fold(Path::new(), |path, _| path.close()));
    assert_eq!(fault_of(&full), Ok(()));
    let mut bytes = full.bytes();
    bytes[scene::file_offset(0, 8)] = 129;
    scene::seal(&mut bytes);
    assert_eq!(rules::scene(&bytes, false).map(|_| ()), illegal(8));
}

#[test]
fn coordinates_566_and_567() {
    // 94 cubics take 564 coordinates, and a line the last two.
    let cubics = (0..94).fold(Path::new(), |path, _| path.cubic_to((0, 0), (0, 0), (0, 0)));
    let full = cubics.line_to(0, 0);
    assert_eq!(fault_of(&with_path(full.clone())), Ok(()));
    assert_eq!(fault_of(&with_path(full.segment(6, &[]))), illegal(772 + 95));
}

/// Edition 1 has sixteen coordinates fewer.
#[test]
fn coordinates_550_and_551() {
    let of = |path| Scene { edition: 1, ..with_path(path) };
    // 91 cubics take 546 coordinates, and a quad the last four.
    let cubics = (0..91).fold(Path::new(), |path, _| path.cubic_to((0, 0), (0, 0), (0, 0)));
    let full = cubics.quad_to((0, 0), (0, 0));
    assert_eq!(fault_of(&of(full.clone())), Ok(()));
    assert_eq!(fault_of(&of(full.segment(6, &[]))), illegal(772 + 92));
}

#[test]
fn editions_1_and_2() {
    let of = |edition| Scene { edition, ..with_path(square(1)) };
    assert_eq!(fault_of(&of(0)), Ok(()));
    assert_eq!(fault_of(&of(1)), Ok(()));
    assert_eq!(fault_of(&of(2)), Err(Fault { code: ILLEGAL_ARGUMENT, draw: NO_DRAW, offset: 6 }));
}

/// The same bytes in the other edition: every draw is changed. Without draws nothing is.
#[test]
fn a_redraw_between_editions() {
    let mut old = Scene::new(9, 9, [0, 0, 0, 255]);
    for x in [1, 5] {
        old.draws.push(Draw { color: RED, path: Path::new().rectangle(x, 2, x + 2, 3), ..Draw::default() });
    }
    let new = Scene { edition: 1, ..old.clone() };
    for (from, to, area) in [
        (&old, &new, Rectangle { x: 1, y: 2, width: 7, height: 2 }),
        (&new, &old, Rectangle { x: 1, y: 2, width: 7, height: 2 }),
        (&new, &new, Rectangle::default()),
        (&Scene { draws: vec![], ..old.clone() }, &Scene { draws: vec![], ..new.clone() }, Rectangle::default()),
    ] {
        let mut surface = drawn(from);
        let answer = redraw(&from.bytes(), &to.bytes(), None, &mut surface, &mut vec![7; SCRATCH_NUMBERS]);
        assert_eq!(answer, Answer::accepted(area));
        assert_eq!(surface, drawn(to));
    }
}

#[test]
fn scratch_surface_and_mask_lengths() {
    let scene = Scene::new(3, 2, [1, 2, 3, 255]);
    let answers = |surface: usize, mask: Option<usize>, scratch: usize| {
        let mut buffers = (vec![0x5A; surface], vec![7; scratch]);
        let mask = mask.map(|length| vec![9; length]);
        let answer = draw(&scene.bytes(), mask.as_deref(), &mut buffers.0, &mut buffers.1);
        if answer.code != 0 {
            assert_eq!(buffers, (vec![0x5A; surface], vec![7; scratch]));
        } else {
            assert_eq!(buffers.1, vec![0; scratch]);
        }
        answer
    };
    let refused = |code| Answer::refused(code, NO_DRAW, 0);
    for mask in [None, Some(6)] {
        assert_eq!(answers(24, mask, 12_300).code, 0);
        assert_eq!(answers(24, mask, 20_000).code, 0);
        assert_eq!(answers(24, mask, 12_299), refused(OUT_OF_MEMORY));
        assert_eq!(answers(23, mask, 12_300), refused(UNSUPPORTED_IMAGE_FORMAT));
        assert_eq!(answers(25, mask, 12_299), refused(UNSUPPORTED_IMAGE_FORMAT));
    }
    // The mask is looked at before the scratch, also where no draw asks for it.
    for length in [0, 5, 7, 24] {
        assert_eq!(answers(24, Some(length), 12_300), refused(UNSUPPORTED_IMAGE_FORMAT));
        assert_eq!(answers(24, Some(length), 12_299), refused(UNSUPPORTED_IMAGE_FORMAT));
    }
}

#[test]
fn draws_64_and_65() {
    let mut scene = Scene::new(1, 1, [0; 4]);
    scene.draws = vec![Draw::default(); 64];
    assert_eq!(fault_of(&scene), Ok(()));
    scene.draws.push(Draw::default());
    assert_eq!(fault_of(&scene), Err(Fault { code: ILLEGAL_ARGUMENT, draw: NO_DRAW, offset: 4 }));
}

#[test]
fn a_relative_step_out_of_range() {
    let relative_line = scene::path::LINE | scene::path::RELATIVE;
    let of = |start| with_path(Path::new().move_to(start, 0).segment(relative_line, &[1, 0]));
    assert_eq!(fault_of(&of(32_766)), Ok(()));
    assert_eq!(fault_of(&of(32_767)), illegal(773));
}

#[test]
fn lengths_and_checks() {
    let bytes = with_path(square(1)).bytes();
    let of = |bytes: &[u8]| rules::scene(bytes, false).map(|_| ());
    let whole = |code, offset| Err(Fault { code, draw: NO_DRAW, offset });
    assert_eq!(of(&[]), whole(BAD_LENGTH, 0));
    assert_eq!(of(&bytes[..511]), whole(BAD_LENGTH, 0));
    assert_eq!(of(&bytes[..512]), whole(BAD_LENGTH, 0));
    assert_eq!(of(&bytes[..bytes.len() - 1]), whole(BAD_LENGTH, 0));
    let mut broken = bytes.clone();
    broken[508] ^= 1;
    assert_eq!(of(&broken), whole(BAD_CHECKSUM, 508));
    // A stored number that is congruent to the sum but not the sum modulo 65,521.
    let mut congruent = Scene::new(1, 1, [0; 4]).bytes();
    let sum = u16::from_le_bytes([congruent[508], congruent[509]]);
    congruent[508..510].copy_from_slice(&(sum + 65_521).to_le_bytes());
    assert_eq!(of(&congruent), whole(BAD_CHECKSUM, 508));
}
