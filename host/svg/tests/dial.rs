//! A dial that Inkscape saved: all of it is held, and the folder scenes has its scene and its picture.

use std::fs;
use std::path::PathBuf;

use wayramesh_svg::{convert, Converted, Options};

fn file(name: &str) -> Vec<u8> {
    let path = PathBuf::from(env!("CARGO_MANIFEST_DIR")).join("../../scenes").join(name);
    fs::read(&path).unwrap_or_else(|error| panic!("{}: {error}", path.display()))
}

fn dial() -> Converted {
    convert(&file("dial.svg"), &Options::default()).expect("a scene")
}

#[test]
fn all_of_it_is_held() {
    let converted = dial();
    assert_eq!(converted.problems, []);
    assert_eq!(converted.scene.draws.len(), 30);
    assert!(
        converted.scene.bytes() == file("dial.scene"),
        "make it again with `cargo run --bin svg-to-scene ../scenes/dial.svg ../scenes/dial.scene`"
    );
}

#[test]
fn its_picture() {
    let text = reference::print::drawing(&dial().scene.bytes(), None);
    let picture = png::Picture::read(text.as_bytes()).expect("a picture");
    assert!(picture.png() == file("dial.png"), "other pixels than those of dial.png");
    let at = |x: usize, y: usize| -> [u8; 4] {
        let pixel = &picture.rgba[4 * (y * picture.width + x)..][..4];
        [pixel[0], pixel[1], pixel[2], pixel[3]]
    };
    assert_eq!(at(0, 0), [0; 4], "a corner is not drawn");
    assert_eq!(at(25, 120), [232, 237, 242, 255], "the tick at the left");
    assert_eq!(at(120, 25), [238, 242, 245, 255], "the tick at the top, under the glass");
    assert_eq!(at(222, 125), [214, 44, 26, 255], "the red range");
    let [r, g, b, a] = at(120, 193);
    assert!(g > 160 && r < 70 && b < 100 && a == 255, "the lamp: {r} {g} {b} {a}");
}
