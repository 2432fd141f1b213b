//! The program: what it prints, and what it leaves.

use std::fs;
use std::path::{Path, PathBuf};
use std::process::{Command, Output};

use scene::{Draw, PaintType, Path as ScenePath, Scene, Scissor};

fn folder() -> PathBuf {
    PathBuf::from(env!("CARGO_TARGET_TMPDIR"))
}

fn why(words: &[&str]) -> Output {
    Command::new(env!("CARGO_BIN_EXE_why")).args(words).output().expect("the program")
}

fn written(name: &str, bytes: &[u8]) -> String {
    let path = folder().join(name);
    fs::write(&path, bytes).expect("a file");
    path.to_str().expect("a name").to_string()
}

/// A green square from 1 to 3 over black, a draw that is elsewhere, one outside its scissor, and half a pixel of red under
/// a mask.
fn four_draws() -> Scene {
    let square = |x0, y0, x1, y1| ScenePath::new().rectangle(x0, y0, x1, y1);
    let color = |color, path| Draw { color, path, ..Draw::default() };
    let mut scene = Scene::new(4, 4, [0, 0, 0, 255]);
    let away = Scissor { x: 0, y: 0, width: 2, height: 1 };
    let green = color([0.0, 1.0, 0.0, 1.0], square(1, 1, 3, 3));
    let half = Draw {
        matrix: [0.5, 0.0, 0.0, 1.0, 0.0, 0.0],
        masked: true,
        ..color([1.0, 0.0, 0.0, 1.0], square(1, 1, 3, 3))
    };
    scene.draws = vec![
        color([1.0; 4], square(3, 3, 4, 4)),
        green.clone(),
        Draw { scissoring: true, scissors: vec![away], paint: PaintType::Linear, ..green },
        half,
    ];
    scene
}

const TOLD: &str = "\
: 4 by 4 pixels, edition 0, 4 draws
pixel (1, 2), row 0 the lowest; colours premultiplied

background       R   0 G   0 B   0 A 255

draw 0           its box is elsewhere

draw 1           covers 16 of 16 samples
    blend        SrcOver
    paint        colour
                 R   0 G 255 B   0 A 255
    path         even-odd rule, 1 of 4 edges cross at or left of a sample
    samples      all inside, winding number -1
    before       R   0 G   0 B   0 A 255
    after        R   0 G 255 B   0 A 255

draw 2           outside its 1 scissor: columns 0 to 1, rows 0 to 0

draw 3           covers 8 of 16 samples
    blend        SrcOver
    paint        colour
                 R 255 G   0 B   0 A 255
    path         even-odd rule, 2 of 4 edges cross at or left of a sample
    samples      ##..   winding -1 -1  0  0
                 ##..   winding -1 -1  0  0
                 ##..   winding -1 -1  0  0
                 ##..   winding -1 -1  0  0
    mask         255 of 255
    before       R   0 G 255 B   0 A 255
    after        R 128 G 128 B   0 A 255

the pixel        R 128 G 128 B   0 A 255
";

#[test]
fn a_pixel_explained() {
    let scene = written("four.scene", &four_draws().bytes());
    let mask = written("four.mask", &[255; 16]);
    let out = why(&[&scene, "1", "2", &mask]);
    assert_eq!(String::from_utf8_lossy(&out.stdout), scene.clone() + TOLD);
    assert_eq!((out.status.code(), out.stderr.len()), (Some(0), 0));

    // With swatches the same words, and colours behind each pixel.
    let out = why(&["--color", &scene, "1", "2", &mask]);
    let text = String::from_utf8_lossy(&out.stdout).to_string();
    assert!(text.contains("R 128 G 128 B   0 A 255  \x1b[48;2;128;128;0m  \x1b[48;2;128;128;0m  \x1b[0m\n"), "{text}");
    assert_eq!(why(&["--no-color", &scene, "1", "2", &mask]).stdout, (scene + TOLD).into_bytes());
}

#[test]
fn a_refusal_told() {
    let mut draw = Draw { path: ScenePath::new().rectangle(0, 0, 1, 1), ..Draw::default() };
    draw.matrix[0] = 300.0;
    let mut scene = Scene::new(2, 1, [0, 0, 0, 255]);
    scene.draws = vec![draw];
    let path = written("matrix.scene", &scene.bytes());
    let out = why(&[&path, "0", "0"]);
    let told = "\
is refused: code 1001, illegal argument

    where    draw 0, place 12: byte 524 of the file, byte 12 of block 1
    field    the matrix's sx
    value    300 (bytes 00 00 96 43)
    rule     the matrix's sx, shy, shx, sy are finite and at most 256 in size
";
    assert_eq!(String::from_utf8_lossy(&out.stdout), format!("{path} {told}"));
    assert_eq!(out.status.code(), Some(1));
}

#[test]
fn wrong_arguments() {
    let scene = written("small.scene", &Scene::new(2, 1, [0, 0, 0, 255]).bytes());
    let complains = |words: &[&str], about: &str| {
        let out = why(words);
        let text = String::from_utf8_lossy(&out.stderr).to_string();
        assert!(out.stdout.is_empty() && text.contains(about), "{words:?}: {text}");
        assert_eq!(out.status.code(), Some(2), "{words:?}");
    };
    complains(&[], "usage: why");
    complains(&[&scene, "0"], "usage: why");
    complains(&[&scene, "0", "0", &scene, "0"], "usage: why");
    complains(&["--loud", &scene, "0", "0"], "--loud is no option");
    complains(&[&scene, "one", "0"], "one is not a number");
    complains(&[&scene, "0", ""], "is not a number");
    complains(&[&scene, "0", "-"], "- is not a number");
    complains(&["/nowhere.scene", "0", "0"], "/nowhere.scene: ");
    complains(&[&scene, "0", "0", "/nowhere.mask"], "/nowhere.mask: ");
    let help = why(&["--help"]);
    assert!(help.status.success() && help.stdout.starts_with(b"usage: why "));
    assert_eq!(why(&[&scene, "99999999999999999999999", "0"]).status.code(), Some(1));
    assert_eq!(why(&[&scene, "-1", "0"]).status.code(), Some(1));
}

/// Every vector that explain/ has is told, whatever it is.
#[test]
fn all_vectors_are_told() {
    let vectors = Path::new(env!("CARGO_MANIFEST_DIR")).join("../../tests/vectors/explain");
    let mut told = 0;
    for entry in fs::read_dir(vectors).expect("the folder of vectors") {
        let path = entry.expect("an entry").path();
        if path.extension().map_or(true, |extension| extension != "scene") {
            continue;
        }
        let scene = fs::read(&path).expect("a scene");
        let mask = fs::read(path.with_extension("mask")).ok();
        for (x, y) in [(0, 0), (1, 0), (3, 5), (7, 7)] {
            let question = why::Question { scene: &scene, mask: mask.as_deref(), x, y };
            let (text, refused) = question.answer("it", true);
            assert!(text.contains(if refused { "    rule  " } else { "\nthe pixel  " }), "{}: {text}", path.display());
            assert!(!text.contains("no words") && !text.contains("unknown"), "{}: {text}", path.display());
            told += 1;
        }
    }
    assert_eq!(told, 32);
}
