//! What a blended pixel costs, in every mode: a half-transparent colour over half-transparent pixels, all of them covered
//! whole, or all of them half.

use std::time::{Duration, Instant};

use library::{Context, Mask};
use scene::{Blend, Draw, Path, Scene};

use crate::stages::Versions;
use crate::timed;

/// As many rows as a path has segments for, one bar each, and as many draws as make a call long enough to be timed.
const WIDTH: u16 = 1_024;
const ROWS: u16 = 32;
const DRAWS: usize = 16;
/// Bars are measured in quarters of a row, of which each holds four samples.
const QUARTERS: i16 = 4;

/// The lines of the table. A time is the difference of two drawings, of which one has scissors that hide all but two pixels: so
/// coverage and the background do not count.
pub fn print(budget: Duration) {
    println!("{:<22} {:>10} {:>10}", "blended pixels", "k = 16", "k = 8");
    for mode in Blend::ALL {
        let times = [QUARTERS, QUARTERS / 2].map(|quarters| nanoseconds(&scene(mode, quarters), budget / 10));
        println!("  {:<20} {:>10.2} {:>10.2}", format!("{mode:?}"), times[0], times[1]);
    }
    println!("Nanoseconds a pixel, the best times: paint and blending alone, without coverage and background.");
}

/// Draws of one mode, all over the surface, that cover so many quarters of each row.
fn scene(blend: Blend, quarters: i16) -> Scene {
    let bars = (0..ROWS as i16).map(|row| QUARTERS * row).fold(Path::new(), |path, bottom| {
        path.move_to(0, bottom).horizontal_to(WIDTH as i16).vertical_to(bottom + quarters).horizontal_to(0)
    });
    let draw = Draw {
        blend,
        matrix: [1.0, 0.0, 0.0, 1.0 / f32::from(QUARTERS), 0.0, 0.0],
        color: [0.9, 0.5, 0.1, 0.5],
        path: bars,
        ..Draw::default()
    };
    Scene { draws: vec![draw; DRAWS], ..Scene::new(WIDTH, ROWS, [40, 80, 160, 128]) }
}

/// The nanoseconds that each pixel's paint and blending take in one of the scene's draws.
fn nanoseconds(scene: &Scene, budget: Duration) -> f64 {
    let versions = Versions::of(scene);
    let mut surface = vec![0; scene.surface_bytes()];
    let mut scratch = vec![0; library::SCRATCH_NUMBERS];
    let (mut framed, mut hidden) = (Duration::MAX, Duration::MAX);
    let begin = Instant::now();
    while begin.elapsed() < budget {
        for (version, least) in [(&versions.framed, &mut framed), (&versions.hidden, &mut hidden)] {
            let (answer, time) =
                timed(|| library::draw(&mut Context::default(), version, Mask::NONE, &mut surface, &mut scratch));
            assert_eq!(answer.code, 0);
            *least = time.min(*least);
        }
    }
    let pixels = f64::from(WIDTH) * f64::from(ROWS) * scene.draws.len() as f64;
    1e9 * framed.saturating_sub(hidden).as_secs_f64() / pixels
}

#[cfg(test)]
mod tests {
    use super::*;

    /// Every pixel is blended, in the first draw and the last: whole where its bar is, by half where that is half as high.
    #[test]
    fn every_pixel_is_blended() {
        for mode in Blend::ALL {
            for (quarters, coverage) in [(QUARTERS, 16), (QUARTERS / 2, 8)] {
                let scene = scene(mode, quarters);
                let mut surface = vec![0; scene.surface_bytes()];
                let answer = library::draw(
                    &mut Context::default(),
                    &scene.bytes(),
                    Mask::NONE,
                    &mut surface,
                    &mut vec![0; library::SCRATCH_NUMBERS],
                );
                assert_eq!(answer.code, 0);
                let source = library::Pixel::from([115, 64, 13, 128]);
                let expected = (0..DRAWS).fold(library::Pixel::from([20, 40, 80, 128]), |below, _| {
                    library::composite(0x2000 + mode as u32, coverage, 255, source, below).pixel
                });
                assert!(surface.chunks(4).all(|pixel| pixel == <[u8; 4]>::from(expected)), "{mode:?} {quarters}");
            }
        }
    }
}
