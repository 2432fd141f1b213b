//! The panel of the folder scenes, drawn and redrawn, with its mask too, and the C example on it.

use std::fs;
use std::path::{Path, PathBuf};
use std::process::Command;

use differential::{compare, compiled_example, Buffers, Call};
use generate::{places, Random};
use reference::picture::SCRATCH_NUMBERS;

fn repository() -> PathBuf {
    Path::new(env!("CARGO_MANIFEST_DIR")).join("../..")
}

/// A file of the folder scenes.
fn file(name: &str) -> Vec<u8> {
    let path = repository().join("scenes").join(name);
    fs::read(&path).unwrap_or_else(|error| panic!("{}: {error}", path.display()))
}

fn draw_and_redraw(old: &str, new: &str, buffers: &Buffers) {
    let (old, new) = (file(old), file(new));
    let (answer, drawn) = compare("panel", Call::Draw(&old), buffers);
    assert_eq!(answer.code, 0);
    let (answer, redrawn) = compare("panel redrawn", Call::Redraw(&old, &new), &drawn);
    assert_eq!(answer.code, 0);
    let (_, full) = compare("next panel", Call::Draw(&new), buffers);
    assert!(redrawn.surface == full.surface);
}

fn rubbish(pixels: usize) -> Buffers {
    Buffers::rubbish(&mut Random::new(6), 4 * pixels, SCRATCH_NUMBERS)
}

#[test]
fn panel() {
    draw_and_redraw("panel.scene", "panel-next.scene", &rubbish(1_024 * 600));
}

#[test]
fn small_panel() {
    draw_and_redraw("panel-small.scene", "panel-small-next.scene", &rubbish(256 * 150));
}

/// The scene of a dial from an SVG editor.
#[test]
fn dial() {
    let (answer, _) = compare("dial", Call::Draw(&file("dial.scene")), &rubbish(240 * 240));
    assert_eq!(answer.code, 0);
}

/// From day to night, between editions.
#[test]
fn panel_at_night() {
    draw_and_redraw("panel.scene", "panel-night.scene", &rubbish(1_024 * 600));
}

/// Its lamps fade under the mask; without it the scene is refused at the first lamp.
#[test]
fn soft_panel() {
    let (old, new) = ("panel-soft.scene", "panel-soft-next.scene");
    let buffers = rubbish(1_024 * 600);
    let with_mask = Buffers { mask_lent: 1, mask: file("panel-soft.mask"), ..buffers.clone() };
    draw_and_redraw(old, new, &with_mask);
    let (answer, _) = compare("no mask", Call::Redraw(&file(old), &file(new)), &buffers);
    assert_eq!((answer.code, answer.draw, answer.scene), (0x1001, 33, 0));
}

/// Two blocks of a draw exchanged, two draws' blocks, a block of an old file: drawn, and as the new scene of a redraw.
#[test]
fn blocks_out_of_place() {
    let sound = file("panel-small.scene");
    let buffers = rubbish(256 * 150);
    for case in places::cases(&sound) {
        let fault = case.fault.expect("a fault");
        let (answer, _) = compare(&case.name, Call::Draw(&case.bytes), &buffers);
        assert_eq!((answer.code, answer.draw, answer.scene), (fault.code, fault.draw, 0), "{}", case.name);
        let (answer, _) = compare(&case.name, Call::Redraw(&sound, &case.bytes), &buffers);
        assert_eq!((answer.code, answer.draw, answer.scene), (fault.code, fault.draw, 1), "{}", case.name);
    }
}

/// The pixels of a PAM image of a size, as it has them: the top row first, colours that are not premultiplied.
fn pam(image: &[u8], width: usize, height: usize) -> &[u8] {
    let header = format!("P7\nWIDTH {width}\nHEIGHT {height}\nDEPTH 4\nMAXVAL 255\nTUPLTYPE RGB_ALPHA\nENDHDR\n");
    image.strip_prefix(header.as_bytes()).expect("a PAM header")
}

/// examples/panel.c compiles as it stands, and its picture of a pair's second frame is the reference's.
#[test]
fn c_example() {
    let program = compiled_example("panel", env!("CARGO_TARGET_TMPDIR"));
    for (old, new, mask, width, height) in [
        ("panel-small.scene", "panel-small-next.scene", None, 256, 150),
        ("panel-soft.scene", "panel-soft-next.scene", Some("panel-soft.mask"), 1_024, 600),
    ] {
        let files = [old, new].into_iter().chain(mask).map(|name| repository().join("scenes").join(name));
        let output = Command::new(&program).args(files).output().expect("the example runs");
        assert!(output.status.success());
        let mut surface = vec![0; 4 * width * height];
        reference::draw(&file(new), mask.map(file).as_deref(), &mut surface, &mut vec![0; SCRATCH_NUMBERS]);
        // The panel is opaque, so straight and premultiplied colours are the same.
        let expected: Vec<u8> = surface.chunks(4 * width).rev().flatten().copied().collect();
        assert!(pam(&output.stdout, width, height) == expected);
    }

    // The gauge that it makes has a mask of its own: at the lowest row of its filling, which is the bezel's, nothing is seen
    // of it, and in the middle all.
    let alone = Command::new(&program).output().expect("the example runs");
    let report = String::from_utf8_lossy(&alone.stderr);
    assert!(alone.status.success());
    assert_eq!(report, "draw: x 0, y 0, width 64, height 24\nredraw: x 13, y 2, width 35, height 21\n");
    let pixels = pam(&alone.stdout, 64, 24);
    let green = |x: usize, y: usize| pixels[4 * (64 * (23 - y) + x) + 1];
    assert!(green(4, 12) < 120 && green(14, 12) > 120, "{} {}", green(4, 12), green(14, 12));
}
