//! What must hold of every scene, tried on generated ones.

use generate::{damage, masks, scenes, Random};
use reference::coverage::coverage;
use reference::picture::SCRATCH_NUMBERS;
use reference::{draw, redraw, rules};

/// The full drawing over a surface and scratch of rubbish, or None if it is refused.
fn drawn(random: &mut Random, scene: &scene::Scene, mask: Option<&[u8]>) -> Option<Vec<u8>> {
    let mut surface = vec![0; scene.surface_bytes()];
    let mut scratch = vec![0; SCRATCH_NUMBERS];
    random.fill_bytes(&mut surface);
    random.fill_numbers(&mut scratch);
    let answer = draw(&scene.bytes(), mask, &mut surface, &mut scratch);
    (answer.code == 0).then_some(surface)
}

/// The picture takes nothing from the buffers, and a redraw from the old picture gives the new one; with a mask for all of
/// them, and with none.
#[test]
fn a_redraw_ends_in_the_new_picture() {
    let mut accepted = [0, 0];
    for seed in 0..900 {
        let mut random = Random::new(seed);
        let old = scenes::scene(&mut random, 24, 6);
        let new = scenes::next_scene(&mut random, &old);
        let mask = masks::mask(&mut random, new.width, new.height);
        let lent = !random.once_in(3);
        let mask = lent.then_some(&mask[..]);
        let (mut surface, expected) = match (drawn(&mut random, &old, mask), drawn(&mut random, &new, mask)) {
            (Some(surface), Some(expected)) => (surface, expected),
            _ => continue,
        };
        assert_eq!(drawn(&mut random, &new, mask), Some(expected.clone()), "seed {seed}");
        let mut scratch = vec![1; SCRATCH_NUMBERS];
        let answer = redraw(&old.bytes(), &new.bytes(), mask, &mut surface, &mut scratch);
        assert_eq!(answer.code, 0, "seed {seed}");
        assert_eq!(surface, expected, "seed {seed}");
        accepted[usize::from(lent)] += 1;
    }
    assert!(accepted[0] > 100 && accepted[1] > 400, "{accepted:?} pairs accepted");
}

/// A mask of 255 everywhere shows what there is without a mask, and one of 0 lets no draw that asks for it through.
#[test]
fn masks_that_show_all_or_nothing() {
    let mut tried = 0;
    for seed in 0..400 {
        let mut random = Random::new(seed);
        let asking = scenes::scene(&mut random, 24, 6);
        let with_draws = |draws| scene::Scene { draws, ..asking.clone() };
        let unasking = asking.draws.iter().map(|draw| scene::Draw { masked: false, ..draw.clone() }).collect();
        let left = asking.draws.iter().filter(|draw| !draw.masked).cloned().collect();
        let all = drawn(&mut random, &asking, Some(&vec![255; asking.mask_bytes()]));
        assert_eq!(all, drawn(&mut random, &with_draws(unasking), None), "seed {seed}");
        if let Some(nothing) = drawn(&mut random, &asking, Some(&vec![0; asking.mask_bytes()])) {
            assert_eq!(Some(nothing), drawn(&mut random, &with_draws(left), None), "seed {seed}");
            tried += 1;
        }
    }
    assert!(tried > 250, "{tried} scenes accepted");
}

/// With every transformation off both editions draw the same, and so does one that is on and the identity.
#[test]
fn editions_without_a_transformation() {
    let mut tried = 0;
    for seed in 0..400 {
        let mut random = Random::new(seed);
        let mut scene = scenes::scene(&mut random, 24, 6);
        let mask = masks::mask(&mut random, scene.width, scene.height);
        let mut picture = |scene: &scene::Scene| drawn(&mut random, scene, Some(&mask));
        scene.edition = 1;
        scene.draws.iter_mut().for_each(|draw| draw.transformed = false);
        let off = picture(&scene);
        scene.edition = 0;
        assert_eq!(picture(&scene), off, "seed {seed}");
        scene.edition = 1;
        for draw in &mut scene.draws {
            (draw.transformed, draw.transformation) = (true, scene::IDENTITY);
        }
        assert_eq!(picture(&scene), off, "seed {seed}");
        tried += usize::from(off.is_some());
    }
    assert!(tried > 250, "{tried} scenes accepted");
}

/// A pixel that no edge end reaches, on either side, has no sample inside.
#[test]
fn outside_the_bounds_nothing_is_covered() {
    let mut tried = 0;
    for seed in 0..300 {
        let mut random = Random::new(seed);
        let scene = match rules::scene(&scenes::scene(&mut random, 24, 6).bytes(), true) {
            Ok(scene) => scene,
            Err(_) => continue,
        };
        for draw in &scene.draws {
            let ends = || draw.edges.iter().flat_map(|e| [e.from, e.to]);
            let columns = (ends().map(|p| p.x >> 8).min(), ends().map(|p| p.x >> 8).max());
            let rows = (ends().map(|p| p.y >> 8).min(), ends().map(|p| p.y >> 8).max());
            let (left, right, bottom, top) = match (columns, rows) {
                ((Some(left), Some(right)), (Some(bottom), Some(top))) => (left, right, bottom, top),
                _ => continue,
            };
            for y in -3..i64::from(scene.height) + 3 {
                for x in -3..i64::from(scene.width) + 3 {
                    if !(left..=right).contains(&x) || !(bottom..=top).contains(&y) {
                        assert_eq!(coverage(&draw.edges, draw.fill_rule, x, y), 0, "seed {seed}");
                        tried += 1;
                    }
                }
            }
        }
    }
    assert!(tried > 50_000, "{tried} pixels tried");
}

/// A refused call changes neither surface nor scratch.
#[test]
fn a_refusal_changes_nothing() {
    let mut refused = 0;
    for seed in 0..600 {
        let mut random = Random::new(seed);
        let scene = scenes::scene(&mut random, 12, 4);
        let bytes = damage::damaged(&mut random, &scene);
        let mut surface = vec![0; scene.surface_bytes()];
        let mut scratch = vec![0; random.pick(&[0, 12_299, 12_300, 12_301])];
        random.fill_bytes(&mut surface);
        random.fill_numbers(&mut scratch);
        let mask = vec![255; random.pick(&[scene.mask_bytes(), scene.mask_bytes(), 0, 1, scene.mask_bytes() + 1])];
        let mask = random.once_in(2).then_some(&mask[..]);
        let before = (surface.clone(), scratch.clone());
        if draw(&bytes, mask, &mut surface, &mut scratch).code != 0 {
            assert_eq!((surface, scratch), before, "seed {seed}");
            refused += 1;
        } else {
            assert!(scratch.iter().all(|&number| number == 0), "seed {seed}");
        }
    }
    assert!(refused > 300, "{refused} refused");
}
