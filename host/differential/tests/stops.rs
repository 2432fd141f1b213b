//! A last stop just below the end of the ramp: its offset becomes 65,535, not 65,536, and the ramp goes on to the end in its
//! colour.

use differential::{compare, Buffers, Call};
use generate::Random;
use reference::picture::SCRATCH_NUMBERS;
use scene::{Draw, PaintType, Path, Scene, Spread, Stop};

/// A row of 1,024 pixels from black to white, the last stop at an offset. The t of pixel x is 64 · x + 32.
fn row(last: f32, spread: Spread, end: f32) -> Vec<u8> {
    let stop = |offset, grey: f32| Stop { offset, color: [grey, grey, grey, 1.0] };
    let mut scene = Scene::new(1_024, 1, [9, 9, 9, 255]);
    scene.draws.push(Draw {
        paint: PaintType::Linear,
        linear: [0.0, 0.0, end, 0.0],
        spread,
        stops: vec![stop(0.0, 0.0), stop(last, 1.0)],
        path: Path::new().rectangle(0, 0, 1_024, 1),
        ..Draw::default()
    });
    let buffers = Buffers::rubbish(&mut Random::new(1), scene.surface_bytes(), SCRATCH_NUMBERS);
    let (answer, left) = compare("a last stop", Call::Draw(&scene.bytes()), &buffers);
    assert_eq!(answer.code, 0);
    left.surface.chunks(4).map(|pixel| pixel[0]).collect()
}

/// 65,535 / 65,536, which a float holds exactly, and 1: two ramps, told apart where 255t / 65,535 is just above a half.
#[test]
fn a_last_stop_below_the_end() {
    let below = row(65_535.0 / 65_536.0, Spread::Pad, 1_024.0);
    let at_end = row(1.0, Spread::Pad, 1_024.0);
    for (x, grey) in [(640, 160), (897, 224)] {
        assert_eq!(below[x], grey, "pixel {x}, the last stop at 65,535");
        assert_eq!(at_end[x], grey - 1, "pixel {x}, the last stop at 65,536");
    }
}

/// Past the last stop the ramp has its colour, up to the end and, padded or reflected, at it.
#[test]
fn the_end_has_the_last_colour() {
    for spread in [Spread::Pad, Spread::Reflect] {
        let grey = row(65_535.0 / 65_536.0, spread, 511.5);
        assert_eq!(grey[511], 255, "t = 65,536");
    }
    let padded = row(65_535.0 / 65_536.0, Spread::Pad, 512.0);
    assert!(padded[512..].iter().all(|&grey| grey == 255), "padded past the end");
}
