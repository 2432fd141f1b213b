//! A minute of the panel: 600 frames in which the bus speeds up and slows down, replayed in one call and redrawn call by call.

use std::time::{Duration, Instant};

use library::{Context, Mask, ANSWER_NUMBERS, MOST_SCENES};
use panel::{Light, Readings};

/// The speed of each frame, kilometres an hour: up for half a minute, then down.
fn speed(frame: usize) -> f64 {
    let half = MOST_SCENES / 2;
    let turn = if frame < half { frame } else { MOST_SCENES - frame };
    120.0 * turn as f64 / half as f64
}

/// A line for the panel, and one for the small panel.
pub fn print(budget: Duration) {
    print_scale("the panel", 1.0, budget);
    print_scale("the small panel", 0.25, budget);
}

/// Frames a second over the minute, the best of the runs, both ways in turn.
fn print_scale(name: &str, scale: f64, budget: Duration) {
    let frames: Vec<Vec<u8>> = (0..MOST_SCENES)
        .map(|frame| panel::panel(&Readings { speed: speed(frame), ..Readings::default() }, scale, Light::Near).bytes())
        .collect();
    let lengths: Vec<u32> = frames.iter().map(|frame| frame.len() as u32).collect();
    let run = frames.concat();
    let mut surface = vec![0; 4 * (scale * panel::WIDTH) as usize * (scale * panel::HEIGHT) as usize];
    let mut single = surface.clone();
    let mut scratch = vec![0; library::SCRATCH_NUMBERS];
    let mut answers = vec![0; ANSWER_NUMBERS * MOST_SCENES];
    let (mut together, mut one_by_one) = (Duration::MAX, Duration::MAX);
    let begin = Instant::now();
    while together == Duration::MAX || begin.elapsed() < budget {
        let mut context = Context::default();
        together = together.min(timed(|| {
            library::replay(&mut context, &run, &lengths, Mask::NONE, &mut surface, &mut scratch, &mut answers);
        }));
        assert_eq!(context.take_code(), 0, "replay");
        one_by_one = one_by_one.min(timed(|| {
            let first = library::draw(&mut context, &frames[0], Mask::NONE, &mut single, &mut scratch);
            assert_eq!(first.code, 0);
            for pair in frames.windows(2) {
                let next = library::redraw(&mut context, &pair[0], &pair[1], Mask::NONE, &mut single, &mut scratch);
                assert_eq!(next.code, 0);
            }
        }));
        assert_eq!(context.take_code(), 0, "one by one");
        assert!(surface == single, "the replay left another picture");
    }
    let rate = |time: Duration| MOST_SCENES as f64 / time.as_secs_f64();
    let (together, one_by_one) = (rate(together), rate(one_by_one));
    println!("replay, {MOST_SCENES} frames of {name}: {together:.0} frames a second; call by call {one_by_one:.0}");
}

fn timed(run: impl FnOnce()) -> Duration {
    let begin = Instant::now();
    run();
    begin.elapsed()
}
