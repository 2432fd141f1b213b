//! Scene files, as many as are named: the best time of a full drawing of each, with the least scratch and with one that
//! no row is cut into windows for.

use std::time::{Duration, Instant};

use library::{Context, Mask};

use crate::timed;

/// 16 numbers to each of 1,024 pixels, behind four to each of 2,049 edges.
const WIDE_SCRATCH: usize = 24_580;

/// A line for each file; the drawings take turns.
pub fn print(paths: &[String], budget: Duration) {
    let scenes: Vec<Vec<u8>> = paths.iter().map(|path| tool::read(path)).collect();
    let mut surfaces: Vec<Vec<u8>> = scenes.iter().map(|scene| vec![0; 4 * side(scene, 0) * side(scene, 2)]).collect();
    let mut scratch = vec![0; WIDE_SCRATCH];
    let mut best = vec![[Duration::MAX; 2]; scenes.len()];
    let begin = Instant::now();
    while best[0][0] == Duration::MAX || begin.elapsed() < budget {
        for ((scene, surface), best) in scenes.iter().zip(&mut surfaces).zip(&mut best) {
            for (numbers, best) in [library::SCRATCH_NUMBERS, WIDE_SCRATCH].into_iter().zip(best) {
                *best = drawn(scene, surface, &mut scratch[..numbers]).min(*best);
            }
        }
    }
    for (path, [least, wide]) in paths.iter().zip(best) {
        println!("{path}: {:.1} µs, {:.1} with {WIDE_SCRATCH} numbers of scratch", micros(least), micros(wide));
    }
}

/// The scene's width or height, which stand at the start of its file.
fn side(scene: &[u8], at: usize) -> usize {
    scene.get(at..at + 2).map_or(0, |bytes| usize::from(bytes[0]) | usize::from(bytes[1]) << 8)
}

/// The time of a full drawing.
fn drawn(scene: &[u8], surface: &mut [u8], scratch: &mut [i32]) -> Duration {
    let (answer, time) = timed(|| library::draw(&mut Context::default(), scene, Mask::NONE, surface, scratch));
    assert_eq!(answer.code, 0, "the scene is refused");
    time
}

fn micros(time: Duration) -> f64 {
    time.as_secs_f64() * 1e6
}
