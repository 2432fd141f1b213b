//! The plain engine beside the quick one: the same small panel, drawn by both in one run.

use std::time::Duration;

use library::{Context, Mask};

use crate::{timed, workloads};

/// A line: both times, and how many times slower the plain engine is. It draws once: that takes seconds.
pub fn print(budget: Duration) {
    let panel = workloads::small_panel();
    let scene = &panel.frames[0];
    let mut quick_surface = vec![0; panel.surface_bytes];
    let mut plain_surface = vec![0; panel.surface_bytes];
    let mut scratch = vec![0; library::SCRATCH_NUMBERS];
    let (answer, plain) = timed(|| library::draw_plain(scene, Mask::NONE, &mut plain_surface, &mut scratch));
    assert_eq!(answer.code, 0);
    let mut quick = Duration::MAX;
    let mut spent = Duration::ZERO;
    while spent < budget {
        let (answer, time) =
            timed(|| library::draw(&mut Context::default(), scene, Mask::NONE, &mut quick_surface, &mut scratch));
        assert_eq!(answer.code, 0);
        quick = quick.min(time);
        spent += time;
    }
    assert!(quick_surface == plain_surface, "the engines differ");
    println!(
        "plain engine, {}: {:.1} ms, {:.0} times the quick one's {:.3} ms",
        panel.name,
        1e3 * plain.as_secs_f64(),
        plain.as_secs_f64() / quick.as_secs_f64(),
        1e3 * quick.as_secs_f64(),
    );
}
