//! The vectors of tests/vectors through the library, those with a mask too.

use std::fs;
use std::path::{Path, PathBuf};

use differential::{compare, Buffers, Call};
use generate::Random;
use reference::picture::SCRATCH_NUMBERS;
use reference::{print, rules};

/// The files of a folder of vectors with this extension.
fn files(folder: &str, extension: &str) -> Vec<PathBuf> {
    let folder = Path::new(env!("CARGO_MANIFEST_DIR")).join("../../tests/vectors").join(folder);
    fs::read_dir(folder)
        .expect("the folder of vectors")
        .map(|entry| entry.expect("an entry").path())
        .filter(|path| path.extension().map_or(false, |e| e == extension))
        .collect()
}

/// Rubbish of the lengths that a scene asks for, and the mask if one is lent.
fn buffers_for(random: &mut Random, scene: &[u8], mask: Option<Vec<u8>>) -> Buffers {
    let surface = rules::scene(scene, mask.is_some()).map_or(4, |scene| scene.surface_bytes());
    let rubbish = Buffers::rubbish(random, surface, SCRATCH_NUMBERS);
    match mask {
        Some(mask) => Buffers { mask_lent: 1, mask, ..rubbish },
        None => rubbish,
    }
}

fn read(path: &Path, extension: &str) -> Vec<u8> {
    let path = path.with_extension(extension);
    fs::read(&path).unwrap_or_else(|error| panic!("{}: {error}", path.display()))
}

/// Draws the scene of a vector and compares what would be printed.
fn draw(random: &mut Random, path: &Path, mask: Option<Vec<u8>>) {
    let scene = read(path, "scene");
    let name = path.display().to_string();
    let (answer, after) = compare(&name, Call::Draw(&scene), &buffers_for(random, &scene, mask));
    let printed = match answer.code {
        0 => print::picture(answer.width as usize, &after.surface),
        code => format!("refused {code:04x} {}\n", answer.draw),
    };
    assert!(printed.as_bytes() == read(path, "out"), "{name}");
}

/// Draws the old scene of a vector, redraws to the new, and compares what would be printed.
fn redraw(random: &mut Random, path: &Path, mask: Option<Vec<u8>>) {
    let (old, new) = (read(path, "old"), read(path, "new"));
    let name = path.display().to_string();
    let (first, drawn) = compare(&name, Call::Draw(&old), &buffers_for(random, &old, mask));
    let (answer, after) = compare(&name, Call::Redraw(&old, &new), &drawn);
    let printed = match answer.code {
        0 => {
            let damage = format!("{} {} {} {}\n", answer.x, answer.y, answer.width, answer.height);
            damage + &print::picture(first.width as usize, &after.surface)
        }
        code => format!("refused {code:04x} {} {}\n", answer.draw, answer.scene),
    };
    assert!(printed.as_bytes() == read(path, "out"), "{name}");
}

#[test]
fn draws() {
    let mut random = Random::new(4);
    files("draw", "scene").iter().for_each(|path| draw(&mut random, path, None));
}

#[test]
fn redraws() {
    let mut random = Random::new(5);
    files("redraw", "old").iter().for_each(|path| redraw(&mut random, path, None));
}

#[test]
fn masks() {
    let mut random = Random::new(8);
    files("mask", "scene").iter().for_each(|path| draw(&mut random, path, Some(read(path, "mask"))));
    files("mask", "old").iter().for_each(|path| redraw(&mut random, path, Some(read(path, "mask"))));
}
