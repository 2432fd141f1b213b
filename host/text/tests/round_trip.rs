//! Scene files to text and back: all files of the repository, and thousands of generated ones of both editions.

use std::fs;
use std::path::{Path, PathBuf};

use generate::{damage, places, rules, scenes, Random};
use wayramesh_text::{to_file, to_scene, to_text};

/// What became of a file.
#[derive(PartialEq, Eq)]
enum Kind {
    Accepted,
    /// With the right length and checks.
    RefusedByAField,
    /// By its length or a check, which no text has.
    RefusedByABlock,
}

/// Takes a file to text and back and compares.
fn round_trip(file: &[u8], name: &str) -> Kind {
    let written = to_text(file);
    let text = written.text.as_bytes();
    match written.fault {
        None => {
            assert!(to_scene(text).as_deref() == Ok(file), "{name}: other bytes");
            Kind::Accepted
        }
        Some(_) if has_sound_blocks(file) => {
            assert!(to_file(text).as_deref() == Ok(file), "{name}: other bytes");
            let errors = to_scene(text).expect_err("a refused scene");
            let line = written.text.lines().nth(errors[0].line - 1).expect("a line");
            assert!(line.ends_with(&format!(" // {}", errors[0].message)), "{name}: {line}: {}", errors[0]);
            Kind::RefusedByAField
        }
        Some(fault) => {
            assert!(written.text.contains(&fault.to_string()), "{name}: the fault is not in the text");
            Kind::RefusedByABlock
        }
    }
}

/// Whether the length is that of as many draws as block 0 says, and every check is right.
fn has_sound_blocks(file: &[u8]) -> bool {
    let mut sealed = file.to_vec();
    scene::seal(&mut sealed);
    let draws = file.get(4..6).map_or(0, |bytes| usize::from(u16::from_le_bytes([bytes[0], bytes[1]])));
    sealed == file && file.len() == scene::file_offset(draws, 0) && draws <= 64
}

fn files(folder: &str) -> Vec<PathBuf> {
    let folder = Path::new(env!("CARGO_MANIFEST_DIR")).join("../..").join(folder);
    let mut files: Vec<PathBuf> = fs::read_dir(folder)
        .expect("a folder")
        .map(|entry| entry.expect("an entry").path())
        .filter(|path| {
            path.extension().map_or(false, |end| ["scene", "old", "new", "salvaged"].iter().any(|e| end == *e))
        })
        .collect();
    files.sort();
    files
}

#[test]
fn all_files_of_the_repository() {
    let folders =
        ["scenes", "tests/vectors/draw", "tests/vectors/redraw", "tests/vectors/mask", "tests/vectors/salvage"];
    let (mut all, mut accepted) = (0, 0);
    for path in folders.iter().chain(&["tests/vectors/explain"]).flat_map(|folder| files(folder)) {
        let kind = round_trip(&fs::read(&path).expect("a file"), &path.display().to_string());
        accepted += usize::from(kind == Kind::Accepted);
        all += 1;
    }
    assert!(all >= 7 + 316 + 112 + 80 + 54 + 8, "{all} files");
    assert!(accepted >= 300, "{accepted} accepted");
}

#[test]
fn generated_scenes() {
    let mut accepted = [0, 0];
    for seed in 0..7_000 {
        let scene = scenes::scene(&mut Random::new(seed), 64, 6);
        if round_trip(&scene.bytes(), &format!("seed {seed}")) == Kind::Accepted {
            accepted[usize::from(scene.edition)] += 1;
        }
    }
    assert!(accepted.iter().sum::<usize>() >= 5_000 && accepted.iter().all(|&count| count >= 2_000), "{accepted:?}");
}

#[test]
fn the_largest_scene() {
    let file = scenes::largest(&mut Random::new(1), 1_024, 1_024).bytes();
    assert!(round_trip(&file, "the largest") == Kind::Accepted);
}

#[test]
fn damaged_scenes() {
    let mut by_a_field = 0;
    for seed in 0..3_000 {
        let mut random = Random::new(1_000_000 + seed);
        let scene = scenes::scene(&mut random, 48, 4);
        let kind = round_trip(&damage::damaged(&mut random, &scene), &format!("damaged {seed}"));
        by_a_field += usize::from(kind == Kind::RefusedByAField);
    }
    assert!(by_a_field >= 500, "{by_a_field}");
}

#[test]
fn both_sides_of_every_rule() {
    for edition in [0, 1] {
        for case in rules::cases(true, edition) {
            let kind = round_trip(&case.bytes, &case.name);
            assert!((kind == Kind::Accepted) == case.fault.is_none(), "{}", case.name);
        }
    }
}

#[test]
fn blocks_out_of_place() {
    let file = scenes::sized_scene(&mut Random::new(3), 9, 9, 3).bytes();
    for case in places::cases(&file) {
        assert!(round_trip(&case.bytes, &case.name) == Kind::RefusedByABlock, "{}", case.name);
    }
}
