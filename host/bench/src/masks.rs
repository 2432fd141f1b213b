//! What a mask costs: a lamp's light over a whole surface, without the mask and under masks of several kinds.

use std::time::{Duration, Instant};

use library::{Context, Mask};
use scene::{Draw, PaintType, Path, Scene, Stop};

use crate::timed;

const SIDE: u16 = 512;

/// A line for each mask.
pub fn print(budget: Duration) {
    let scenes = [false, true].map(|masked| lamp(masked).bytes());
    let masks = masks();
    let mut surface = vec![0; lamp(false).surface_bytes()];
    let mut scratch = vec![0; library::SCRATCH_NUMBERS];
    let mut best = vec![Duration::MAX; masks.len()];
    let begin = Instant::now();
    while begin.elapsed() < budget {
        for ((_, bytes), best) in masks.iter().zip(&mut best) {
            let (scene, mask) = match bytes {
                Some(bytes) => (&scenes[1], Mask::of(bytes)),
                None => (&scenes[0], Mask::NONE),
            };
            let (answer, time) =
                timed(|| library::draw(&mut Context::default(), scene, mask, &mut surface, &mut scratch));
            assert_eq!(answer.code, 0);
            *best = time.min(*best);
        }
    }
    for ((name, _), time) in masks.iter().zip(best) {
        println!("lamp, {name}: {:.1} ns a pixel", 1e9 * time.as_secs_f64() / f64::from(SIDE) / f64::from(SIDE));
    }
}

/// A surface that a lamp's light fills.
fn lamp(masked: bool) -> Scene {
    let middle = f32::from(SIDE) / 2.0;
    let stop = |offset, alpha| Stop { offset, color: [1.0, 0.2, 0.1, alpha] };
    let mut scene = Scene::new(SIDE, SIDE, [10, 12, 16, 255]);
    scene.draws.push(Draw {
        masked,
        paint: PaintType::Radial,
        radial: [middle, middle, middle, middle, middle],
        stops: vec![stop(0.0, 0.9), stop(0.5, 0.4), stop(1.0, 0.1)],
        path: Path::new().rectangle(0, 0, SIDE as i16, SIDE as i16),
        ..Draw::default()
    });
    scene
}

/// None, and masks that show all, nothing, an inner square that fades at its edges, and each pixel otherwise.
fn masks() -> Vec<(&'static str, Option<Vec<u8>>)> {
    let side = usize::from(SIDE);
    let filled = |byte: fn(usize, usize) -> u8| (0..side * side).map(|i| byte(i % side, i / side)).collect::<Vec<u8>>();
    let faded = filled(|x, y| {
        let from_edge = |v: usize| v.min(usize::from(SIDE) - 1 - v).saturating_sub(64);
        (8 * from_edge(x).min(from_edge(y))).min(255) as u8
    });
    vec![
        ("no mask", None),
        ("all of the mask 255", Some(filled(|_, _| 255))),
        ("all of the mask 0", Some(filled(|_, _| 0))),
        ("a mask that fades at a bezel", Some(faded)),
        ("every byte of the mask another", Some(filled(|x, y| (7 * x + 31 * y) as u8))),
    ]
}

#[cfg(test)]
mod tests {
    use super::*;

    /// All masks are accepted, and each but that of 255 makes another picture.
    #[test]
    fn the_masks_count() {
        let drawn = |scene: &Scene, mask: Mask| {
            let mut surface = vec![0; scene.surface_bytes()];
            let answer = library::draw(
                &mut Context::default(),
                &scene.bytes(),
                mask,
                &mut surface,
                &mut vec![0; library::SCRATCH_NUMBERS],
            );
            assert_eq!(answer.code, 0);
            surface
        };
        let unmasked = drawn(&lamp(false), Mask::NONE);
        let pictures: Vec<Vec<u8>> =
            masks().iter().filter_map(|(_, mask)| Some(drawn(&lamp(true), Mask::of(mask.as_ref()?)))).collect();
        assert!(pictures[0] == unmasked);
        assert!(pictures[1..].iter().all(|picture| *picture != unmasked));
    }
}
