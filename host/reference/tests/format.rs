//! The worked example of docs/FORMAT.md: its bytes are the builder's, and its picture is the one that they make.

use std::fs;
use std::path::Path;

use reference::print;
use scene::{Draw, Scene};

/// The lines of the document that are set apart, without their margin.
fn set_apart() -> Vec<String> {
    let path = Path::new(env!("CARGO_MANIFEST_DIR")).join("../../docs/FORMAT.md");
    let text = fs::read_to_string(path).expect("the document");
    text.lines().filter_map(|line| Some(line.strip_prefix("    ")?.to_string())).collect()
}

/// The offset and the sixteen bytes that a line begins with, if it does.
fn row(line: &str) -> Option<(usize, Vec<u8>)> {
    let (offset, rest) = line.split_once("  ")?;
    let offset = usize::from_str_radix(offset, 16).ok()?;
    let bytes = rest.split(' ').take(16).map(|byte| u8::from_str_radix(byte, 16)).collect::<Result<_, _>>().ok()?;
    Some((offset, bytes))
}

/// A square from 0 to 2 whose red is halved.
fn square_at_night() -> Scene {
    let mut scene = Scene { edition: 1, ..Scene::new(4, 4, [0, 0, 0, 255]) };
    scene.draws.push(Draw {
        transformed: true,
        transformation: [0.5, 1.0, 1.0, 1.0, 0.0, 0.0, 0.0, 0.0],
        color: [1.0, 0.0, 0.0, 1.0],
        path: scene::Path::new().rectangle(0, 0, 2, 2),
        ..Draw::default()
    });
    scene
}

#[test]
fn the_worked_example() {
    let lines = set_apart();
    let mut file = vec![0; square_at_night().bytes().len()];
    let rows: Vec<(usize, Vec<u8>)> = lines.iter().filter_map(|line| row(line)).collect();
    assert_eq!(rows.len(), 14);
    for (offset, bytes) in rows {
        file[offset..offset + bytes.len()].copy_from_slice(&bytes);
    }
    assert_eq!(file, square_at_night().bytes());
    let first = lines.iter().position(|line| line == "4 4").expect("the picture");
    let picture: String = lines[first..first + 5].iter().flat_map(|line| [line, "\n"]).collect();
    assert_eq!(print::drawing(&file, None), picture);
}
