//! The examples of docs/TEXT.md are what the tools write and read.

use std::fs;
use std::path::Path;

use scene::{Draw, Path as ScenePath, Scene};
use wayramesh_text::{to_scene, to_text};

/// The texts of the document, each between its fences.
fn examples() -> Vec<String> {
    let document =
        fs::read_to_string(Path::new(env!("CARGO_MANIFEST_DIR")).join("../../docs/TEXT.md")).expect("the document");
    document.split("```text\n").skip(1).map(|rest| rest.split("```").next().unwrap_or("").to_string()).collect()
}

/// The square at night of docs/FORMAT.md.
fn square() -> Scene {
    let draw = Draw {
        transformed: true,
        color: [1.0, 0.0, 0.0, 1.0],
        transformation: [0.5, 1.0, 1.0, 1.0, 0.0, 0.0, 0.0, 0.0],
        path: ScenePath::new().rectangle(0, 0, 2, 2),
        ..Draw::default()
    };
    Scene { edition: 1, draws: vec![draw], ..Scene::new(4, 4, [0, 0, 0, 255]) }
}

#[test]
fn the_square_at_night() {
    let (file, examples) = (square().bytes(), examples());
    assert_eq!(examples.len(), 2);
    assert_eq!(to_text(&file).text, examples[0]);
    for example in examples {
        assert_eq!(to_scene(example.as_bytes()), Ok(file.clone()));
    }
}

/// The defaults that the document lists are those of the scene builder.
#[test]
fn defaults() {
    for edition in [0, 1] {
        let scene = Scene { edition, draws: vec![Draw::default(); 2], ..Scene::new(3, 2, [0; 4]) };
        assert_eq!(to_scene(format!("size 3 2\nedition {edition}\ndraw\ndraw").as_bytes()), Ok(scene.bytes()));
    }
}
