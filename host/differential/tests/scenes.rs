//! Generated scenes of both editions, sound and damaged, drawn and redrawn, with a mask or none. WAYRAMESH_ROUNDS
//! multiplies their number.

use differential::{compare, rounds, Buffers, Call};
use generate::{damage, scenes, transforms, Random};
use reference::picture::SCRATCH_NUMBERS;

/// Draws one scene after the other; returns how many were accepted.
fn draw_all(seeds: std::ops::Range<u64>, side: i32, draws: i32) -> u64 {
    let mut accepted = 0;
    for seed in seeds {
        let mut random = Random::new(seed);
        let scene = scenes::scene(&mut random, side, draws);
        let buffers = Buffers::for_scene(&mut random, scene.width, scene.height);
        let (answer, _) = compare(&format!("seed {seed}"), Call::Draw(&scene.bytes()), &buffers);
        accepted += u64::from(answer.code == 0);
    }
    accepted
}

#[test]
fn small_scenes() {
    let count = 12_000 * rounds();
    let accepted = draw_all(0..count, 24, 6);
    assert!(accepted > count / 2, "{accepted} of {count} accepted");
}

#[test]
fn scenes_of_many_draws() {
    let first = 10_000_000;
    draw_all(first..first + 400 * rounds(), 16, 64);
}

#[test]
fn large_scenes() {
    let first = 20_000_000;
    draw_all(first..first + 60 * rounds(), 300, 8);
}

/// The greatest sides, where rows and columns end.
#[test]
fn long_and_narrow_scenes() {
    for seed in 30_000_000..30_000_000 + 60 * rounds() {
        let mut random = Random::new(seed);
        let (width, height) = random.pick(&[(1_024, 3), (3, 1_024), (1_023, 1), (1, 1_023), (1_024, 16)]);
        let scene = scenes::sized_scene(&mut random, width, height, 4);
        let buffers = Buffers::masked(&mut random, width, height);
        compare(&format!("seed {seed}"), Call::Draw(&scene.bytes()), &buffers);
    }
}

/// 64 draws of 2,049 edges each, and one of them changed.
#[test]
fn largest_scene() {
    let mut random = Random::new(40_000_000);
    let old = scenes::largest(&mut random, 40, 40);
    let mut new = old.clone();
    new.draws[63].color = [0.25, 0.5, 0.75, 0.5];
    new.draws[31].path = scenes::largest(&mut random, 40, 40).draws[0].path.clone();
    let buffers = Buffers::rubbish(&mut random, old.surface_bytes(), SCRATCH_NUMBERS);
    let (answer, drawn) = compare("largest", Call::Draw(&old.bytes()), &buffers);
    assert_eq!(answer.code, 0);
    compare("largest redrawn", Call::Redraw(&old.bytes(), &new.bytes()), &drawn);
}

/// A whole surface of 1,024 by 1,024 with a few draws.
#[test]
fn largest_surface() {
    let mut random = Random::new(50_000_000);
    let mut scene = scenes::sized_scene(&mut random, 1_024, 1_024, 3);
    scene.draws[1].masked = true;
    let buffers = Buffers::masked(&mut random, 1_024, 1_024);
    compare("largest surface", Call::Draw(&scene.bytes()), &buffers);
}

#[test]
fn damaged_scenes() {
    let count = 12_000 * rounds();
    let mut refused = 0;
    for seed in 60_000_000..60_000_000 + count {
        let mut random = Random::new(seed);
        let scene = scenes::scene(&mut random, 12, 4);
        let bytes = damage::damaged(&mut random, &scene);
        let buffers = Buffers::for_scene(&mut random, scene.width, scene.height);
        let (answer, _) = compare(&format!("seed {seed}"), Call::Draw(&bytes), &buffers);
        refused += u64::from(answer.code != 0);
    }
    assert!(refused > count / 2 && refused < count, "{refused} of {count} refused");
}

/// Buffers of a scene's size, three times in four with a mask.
fn lent(random: &mut Random, scene: &scene::Scene) -> Buffers {
    if random.once_in(4) {
        Buffers::rubbish(random, scene.surface_bytes(), SCRATCH_NUMBERS)
    } else {
        Buffers::masked(random, scene.width, scene.height)
    }
}

/// A redraw over what the old scene's full drawing left ends in the new scene's full drawing, under the same mask or none.
#[test]
fn redraws() {
    let count = 8_000 * rounds();
    let mut finished = 0;
    for seed in 70_000_000..70_000_000 + count {
        let mut random = Random::new(seed);
        let old = scenes::scene(&mut random, 24, 6);
        let new = scenes::next_scene(&mut random, &old);
        let rubbish = lent(&mut random, &new);
        let (old, new) = (old.bytes(), new.bytes());
        let name = format!("seed {seed}");
        let (answer, mut drawn) = compare(&name, Call::Draw(&old), &rubbish);
        if answer.code != 0 {
            continue;
        }
        random.fill_numbers(&mut drawn.scratch);
        let (answer, redrawn) = compare(&name, Call::Redraw(&old, &new), &drawn);
        if answer.code == 0 {
            let (_, full) = compare(&name, Call::Draw(&new), &rubbish);
            assert!(redrawn.surface == full.surface, "{name}: the redraw is not the full drawing");
            finished += 1;
        }
    }
    assert!(finished > count / 2, "{finished} of {count} redrawn");
}

/// The greatest sides again: wide and high surfaces, redrawn.
#[test]
fn redraws_of_wide_and_high_surfaces() {
    let count = 80 * rounds();
    let mut finished = 0;
    for seed in 75_000_000..75_000_000 + count {
        let mut random = Random::new(seed);
        let short = random.range(1, 20) as u16;
        let long = random.pick(&[1_024, 1_023, 1_000, 769, 513, 257]);
        let (width, height) = if random.once_in(2) { (long, short) } else { (short, long) };
        let old = scenes::sized_scene(&mut random, width, height, 4);
        let new = scenes::next_scene(&mut random, &old);
        let rubbish = lent(&mut random, &new);
        let (old, new) = (old.bytes(), new.bytes());
        let name = format!("seed {seed}");
        let (answer, drawn) = compare(&name, Call::Draw(&old), &rubbish);
        if answer.code != 0 {
            continue;
        }
        let (answer, redrawn) = compare(&name, Call::Redraw(&old, &new), &drawn);
        if answer.code == 0 {
            let (_, full) = compare(&name, Call::Draw(&new), &rubbish);
            assert!(redrawn.surface == full.surface, "{name}: the redraw is not the full drawing");
            finished += 1;
        }
    }
    assert!(finished > count / 2, "{finished} of {count} redrawn");
}

/// Every channel of a paint that a transformation meets, and alphas too: a ramp from nothing to one colour, under scales
/// and biases of every kind.
#[test]
fn transformations() {
    for seed in 85_000_000..85_000_000 + 400 * rounds() {
        let mut random = Random::new(seed);
        let mut scene = scene::Scene::new(256, 1, [9, 8, 7, 255]);
        scene.edition = 1;
        let stop = |offset, color| scene::Stop { offset, color };
        let end = [0, 1, 2, 3].map(|_| random.unit());
        scene.draws.push(scene::Draw {
            transformed: true,
            transformation: transforms::transformation(&mut random),
            blend: scene::Blend::Src,
            paint: random.pick(&[scene::PaintType::Linear, scene::PaintType::Radial, scene::PaintType::Color]),
            premultiplied_ramp: random.once_in(2),
            linear: [0.0, 0.0, 256.0, 0.0],
            radial: [0.0, 0.0, 0.0, 0.0, 256.0],
            color: end,
            stops: vec![stop(0.0, [end[2], end[0], end[1], 0.0]), stop(1.0, end)],
            path: scene::Path::new().rectangle(0, 0, 256, 1),
            ..scene::Draw::default()
        });
        let buffers = Buffers::rubbish(&mut random, scene.surface_bytes(), SCRATCH_NUMBERS);
        let (answer, _) = compare(&format!("seed {seed}"), Call::Draw(&scene.bytes()), &buffers);
        assert_eq!(answer.code, 0);
    }
}

/// From day to night and back: the editions differ, so every draw is changed. The same paths are drawn in both.
#[test]
fn redraws_between_editions() {
    for seed in 87_000_000..87_000_000 + 1_500 * rounds() {
        let mut random = Random::new(seed);
        let mut day = scene::Scene { edition: 0, ..scenes::scene(&mut random, 24, 6) };
        day.draws.iter_mut().for_each(|draw| draw.transformed = false);
        let mut night = scene::Scene { edition: 1, ..day.clone() };
        for draw in &mut night.draws {
            draw.transformed = !random.once_in(3);
            draw.transformation = transforms::transformation(&mut random);
        }
        let name = format!("seed {seed}");
        let rubbish = Buffers::masked(&mut random, day.width, day.height);
        for (old, new) in [(&day, &night), (&night, &day)] {
            let (old, new) = (old.bytes(), new.bytes());
            let (answer, drawn) = compare(&name, Call::Draw(&old), &rubbish);
            if answer.code == 0 {
                let (_, redrawn) = compare(&name, Call::Redraw(&old, &new), &drawn);
                let (_, full) = compare(&name, Call::Draw(&new), &rubbish);
                assert!(redrawn.surface == full.surface, "{name}: the redraw is not the full drawing");
            }
        }
    }
}

/// Redraws over rubbish, with buffers of any length: outside the area nothing is written.
#[test]
fn redraws_over_rubbish() {
    for seed in 80_000_000..80_000_000 + 6_000 * rounds() {
        let mut random = Random::new(seed);
        let old = scenes::scene(&mut random, 20, 5);
        let new = scenes::next_scene(&mut random, &old);
        let buffers = Buffers::for_scene(&mut random, old.width, old.height);
        compare(&format!("seed {seed}"), Call::Redraw(&old.bytes(), &new.bytes()), &buffers);
    }
}

/// Redraws in which either scene may be damaged, or have another size.
#[test]
fn redraws_of_damaged_scenes() {
    let mut codes = std::collections::BTreeMap::new();
    for seed in 90_000_000..90_000_000 + 8_000 * rounds() {
        let mut random = Random::new(seed);
        let old = scenes::scene(&mut random, 10, 3);
        let mut new = scenes::next_scene(&mut random, &old);
        if random.once_in(5) {
            (new.width, new.height) = random.pick(&[(old.height, old.width), (old.width + 1, old.height)]);
        }
        let spoil = random.range(0, 3);
        let old_bytes = if spoil & 1 == 1 { damage::damaged(&mut random, &old) } else { old.bytes() };
        let new_bytes = if spoil & 2 == 2 { damage::damaged(&mut random, &new) } else { new.bytes() };
        let buffers = Buffers::for_scene(&mut random, old.width, old.height);
        let (answer, _) = compare(&format!("seed {seed}"), Call::Redraw(&old_bytes, &new_bytes), &buffers);
        *codes.entry((answer.code, answer.scene)).or_insert(0) += 1;
    }
    for expected in [
        (0, 0),
        (0xB001, 0),
        (0xB001, 1),
        (0xB002, 0),
        (0xB002, 1),
        (0x1001, 0),
        (0x1001, 1),
        (0x1005, 0),
        (0x1005, 1),
        (0x1002, 0),
        (0x1004, 0),
    ] {
        assert!(codes.contains_key(&expected), "no answer {expected:x?} in {codes:x?}");
    }
}
