//! Blocks of real files out of place: the panel, and the accepted scenes of tests/vectors.

use std::fs;
use std::path::{Path, PathBuf};

use generate::places;
use reference::{rules, Fault};

fn files() -> Vec<PathBuf> {
    let repository = Path::new(env!("CARGO_MANIFEST_DIR")).join("../..");
    let vectors = fs::read_dir(repository.join("tests/vectors/draw")).expect("the folder of vectors");
    let paths = vectors.map(|entry| entry.expect("an entry").path());
    let scenes = paths.filter(|path| path.extension().map_or(false, |e| e == "scene"));
    scenes.chain([repository.join("scenes/panel.scene")]).collect()
}

#[test]
fn a_block_out_of_place_is_refused() {
    let mut tried = 0;
    for path in files() {
        let file = fs::read(&path).expect("a scene");
        if rules::scene(&file, false).is_err() {
            continue;
        }
        for case in places::cases(&file) {
            let expected = case.fault.map(|fault| Fault { code: fault.code, draw: fault.draw, offset: fault.offset });
            let found = rules::scene(&case.bytes, false).map(|_| ()).err();
            assert_eq!(found, expected, "{}: {}", path.display(), case.name);
            tried += 1;
        }
    }
    assert!(tried > 10_000, "{tried} cases");
}
