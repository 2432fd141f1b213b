//! The plain engine beside the quick one and the reference: the same answer, the same bytes and the same scratch, for every
//! vector that draws, and for generated scenes of both editions, sound and damaged, with a mask or none.

use std::fs;
use std::path::{Path, PathBuf};

use differential::{compare, rounds, Buffers, Call};
use generate::{damage, scenes, Random};
use reference::picture::SCRATCH_NUMBERS;
use reference::rules;

/// Draws with both engines, each held to the reference, and holds them to each other; whether the call was accepted.
fn both(name: &str, scene: &[u8], buffers: &Buffers) -> bool {
    let (quick, quick_left) = compare(name, Call::Draw(scene), buffers);
    let (plain, plain_left) = compare(name, Call::DrawPlain(scene), buffers);
    assert_eq!(quick, plain, "{name}: the answers differ");
    assert!(quick_left.surface == plain_left.surface, "{name}: the surfaces differ");
    assert!(quick_left.scratch == plain_left.scratch, "{name}: the scratches differ");
    quick.code == 0
}

fn scenes_of(folder: &str) -> Vec<PathBuf> {
    let folder = Path::new(env!("CARGO_MANIFEST_DIR")).join("../../tests/vectors").join(folder);
    fs::read_dir(folder)
        .expect("the folder of vectors")
        .map(|entry| entry.expect("an entry").path())
        .filter(|path| path.extension().map_or(false, |ending| ending == "scene"))
        .collect()
}

/// Draws the scenes of a folder of vectors, under their masks where they have one; how many were accepted.
fn accepted_of(folder: &str, random: &mut Random) -> usize {
    let draws = |path: &PathBuf| {
        let scene = fs::read(path).expect("a scene");
        let mask = fs::read(path.with_extension("mask")).ok();
        let surface = rules::scene(&scene, mask.is_some()).map_or(4, |scene| scene.surface_bytes());
        let rubbish = Buffers::rubbish(random, surface, SCRATCH_NUMBERS);
        let buffers = match mask {
            Some(mask) => Buffers { mask_lent: 1, mask, ..rubbish },
            None => rubbish,
        };
        usize::from(both(&path.display().to_string(), &scene, &buffers))
    };
    scenes_of(folder).iter().map(draws).sum()
}

#[test]
fn vectors() {
    let mut random = Random::new(14);
    let accepted = accepted_of("draw", &mut random);
    assert!(accepted >= 100, "{accepted} accepted");
    let masked = accepted_of("mask", &mut random);
    assert!(masked >= 10, "{masked} accepted under a mask");
}

#[test]
fn generated_scenes() {
    let count = 1_500 * rounds();
    let mut accepted = 0;
    for seed in 110_000_000..110_000_000 + count {
        let mut random = Random::new(seed);
        let scene = scenes::scene(&mut random, 12, 4);
        let buffers = Buffers::for_scene(&mut random, scene.width, scene.height);
        accepted += u64::from(both(&format!("seed {seed}"), &scene.bytes(), &buffers));
    }
    assert!(accepted > count / 2, "{accepted} of {count} accepted");
}

#[test]
fn damaged_scenes() {
    let count = 1_500 * rounds();
    let mut accepted = 0;
    for seed in 120_000_000..120_000_000 + count {
        let mut random = Random::new(seed);
        let scene = scenes::scene(&mut random, 8, 3);
        let bytes = damage::damaged(&mut random, &scene);
        let buffers = Buffers::for_scene(&mut random, scene.width, scene.height);
        accepted += u64::from(both(&format!("seed {seed}"), &bytes, &buffers));
    }
    assert!(accepted < count / 2, "{accepted} of {count} accepted");
}

/// The greatest sides, where rows and columns end, and as many edges as a draw can have.
#[test]
fn ends_of_the_limits() {
    for seed in 130_000_000..130_000_000 + 12 * rounds() {
        let mut random = Random::new(seed);
        let (width, height) = random.pick(&[(1_024, 2), (2, 1_024), (1_023, 1), (1, 1_023)]);
        let scene = scenes::sized_scene(&mut random, width, height, 3);
        let buffers = Buffers::masked(&mut random, width, height);
        both(&format!("seed {seed}"), &scene.bytes(), &buffers);
    }
    let mut random = Random::new(131_000_000);
    let mut scene = scenes::largest(&mut random, 12, 12);
    scene.draws.truncate(3);
    let buffers = Buffers::rubbish(&mut random, scene.surface_bytes(), SCRATCH_NUMBERS);
    assert!(both("2,049 edges", &scene.bytes(), &buffers));
}
