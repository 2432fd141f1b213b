//! Scenes of small draws that lie here and there on a surface, and the same draws in another order.

use scene::{Path, Scene};

use crate::paths::path;
use crate::scenes::{draw, sized_scene};
use crate::Random;

/// A scene of up to `draws` draws of a few pixels each: of either edition, some asking for a mask; now and then a draw
/// twice, one without a segment, one off the surface or one all over it.
pub fn scattered(random: &mut Random, side: i32, draws: i32) -> Scene {
    let (width, height) = (random.range(1, side) as u16, random.range(1, side) as u16);
    let count = random.range(2, draws);
    let mut scene = sized_scene(random, width, height, count);
    for i in 0..scene.draws.len() {
        let drawn = &mut scene.draws[i];
        drawn.matrix = draw_matrix(random, width, height);
        let segments = random.range(3, 9) as usize;
        drawn.path = match random.range(0, 11) {
            0 => Path::new(),
            1 => draw(random, width, height).path,
            // Up to four pixels each way.
            _ => path(random, segments, 16),
        };
        if i > 0 && random.once_in(8) {
            scene.draws[i] = scene.draws[random.index(i)].clone();
        }
    }
    scene
}

/// A quarter of a pixel to a unit, the origin anywhere on the surface, at times beside it.
fn draw_matrix(random: &mut Random, width: u16, height: u16) -> [f32; 6] {
    let (tx, ty) = (random.range(-4, i32::from(width) + 2), random.range(-4, i32::from(height) + 2));
    let part = random.pick(&[0.0, 0.0, 0.125, 0.3]);
    [0.25, 0.0, 0.0, random.pick(&[0.25, 0.25, -0.25]), tx as f32 + part, ty as f32]
}

/// The draws of a scene in another order: which draw each place has.
pub fn order(random: &mut Random, draws: usize) -> Vec<usize> {
    let mut order: Vec<usize> = (0..draws).collect();
    match random.range(0, 9) {
        0 => {}
        1 => order.reverse(),
        // Neighbours exchanged.
        2 | 3 if draws > 1 => {
            let at = random.index(draws - 1);
            order.swap(at, at + 1);
        }
        // One taken out and put in elsewhere.
        4 | 5 if draws > 0 => {
            let draw = order.remove(random.index(draws));
            order.insert(random.index(draws), draw);
        }
        _ => (1..draws).for_each(|i| order.swap(i, random.index(i + 1))),
    }
    order
}

/// The scene with its draws in that order.
pub fn reordered(scene: &Scene, order: &[usize]) -> Scene {
    Scene { draws: order.iter().map(|&i| scene.draws[i].clone()).collect(), ..scene.clone() }
}
