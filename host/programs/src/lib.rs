//! The scene files that the programs are run on in the gate: the paper's bench cases, and both sides of its limits.
#![forbid(unsafe_code)]

use scene::path::{HORIZONTAL, LINE, RELATIVE};
use scene::{file_offset, seal, Draw, Path, Scene};

const RED: [f32; 4] = [1.0, 0.0, 0.0, 1.0];
const BLUE: [f32; 4] = [0.0, 0.0, 1.0, 1.0];

/// Where each file stands in the folder crates, and its bytes.
pub fn files() -> Vec<(&'static str, Vec<u8>)> {
    vec![
        ("draw/data/two-by-one.scene", two_by_one().bytes()),
        ("redraw/data/red.scene", square(RED).bytes()),
        ("redraw/data/blue.scene", square(BLUE).bytes()),
        ("limits/data/two-by-one.scene", two_by_one().bytes()),
        ("limits/data/red.scene", square(RED).bytes()),
        ("limits/data/blue.scene", square(BLUE).bytes()),
        ("limits/data/segments-128.scene", segments_128().bytes()),
        ("limits/data/segments-129.scene", segments_129()),
        ("limits/data/coordinates-566.scene", coordinates(false).bytes()),
        ("limits/data/coordinates-567.scene", coordinates(true).bytes()),
        ("limits/data/draws-64.scene", draws(64).bytes()),
        ("limits/data/draws-65.scene", draws(65).bytes()),
        ("limits/data/step-to-32767.scene", relative_step(32_766).bytes()),
        ("limits/data/step-to-32768.scene", relative_step(32_767).bytes()),
    ]
}

/// The paper's worked picture.
fn two_by_one() -> Scene {
    Scene::new(2, 1, [0, 0, 0, 255])
}

/// The paper's 4 by 4 picture with a square from 0 to 2.
fn square(color: [f32; 4]) -> Scene {
    let mut scene = Scene::new(4, 4, [0, 0, 0, 255]);
    scene.draws.push(Draw { color, path: Path::new().rectangle(0, 0, 2, 2), ..Draw::default() });
    scene
}

/// An 8 by 8 picture with one path, which is scaled.
fn with_path(path: Path, scale: f32) -> Scene {
    let mut scene = Scene::new(8, 8, [255, 255, 255, 255]);
    scene.draws.push(Draw { matrix: [scale, 0.0, 0.0, scale, 0.0, 0.0], color: RED, path, ..Draw::default() });
    scene
}

/// A zigzag of as many segments as the layout has places for.
fn segments_128() -> Scene {
    let points: Vec<(i16, i16)> = (0..127).map(|x| (x, if x % 2 == 0 { 0 } else { 127 })).collect();
    with_path(Path::new().polygon(&points), 1.0 / 16.0)
}

/// The same with a count of one more.
fn segments_129() -> Vec<u8> {
    let mut bytes = segments_128().bytes();
    bytes[file_offset(0, 8)] = 129;
    seal(&mut bytes);
    bytes
}

/// 94 cubics and a line take 566 coordinates; one more segment needs the 567th.
fn coordinates(one_more: bool) -> Scene {
    let cubics = (1..=94).fold(Path::new(), |path, k| path.cubic_to((k, 127), (127, k), (k, k)));
    let path = cubics.line_to(127, 0);
    with_path(if one_more { path.segment(HORIZONTAL, &[]) } else { path }, 1.0 / 16.0)
}

/// Unit squares, row by row from the lowest.
fn draws(count: i16) -> Scene {
    let mut scene = Scene::new(8, 8, [0, 0, 0, 255]);
    for i in 0..count {
        let (x, y) = (i % 8, i / 8);
        let color = [f32::from(i) / 64.0, 0.5, 1.0, 0.75];
        scene.draws.push(Draw { color, path: Path::new().rectangle(x, y, x + 1, y + 1), ..Draw::default() });
    }
    scene
}

/// A triangle with a relative step of 1 to the right from there.
fn relative_step(from: i16) -> Scene {
    let path = Path::new().move_to(0, 0).line_to(from, 0).segment(LINE | RELATIVE, &[1, 32_767]).close();
    with_path(path, 1.0 / 4_096.0)
}
