//! What planned rectangles save: the panel's next frame with a lamp changed too, redrawn in one area and as planned.

use std::time::{Duration, Instant};

use library::{Context, Mask};
use panel::{Light, Readings};

use crate::timed;

/// A line for each way: the pixels that are redrawn, and the best time.
pub fn print(budget: Duration) {
    let now = Readings::default();
    let mut next = now.next();
    next.high_beam = !now.high_beam;
    let frames = [&now, &next].map(|readings| panel::panel(readings, 1.0, Light::Near));
    let mut surface = vec![0; frames[0].surface_bytes()];
    let mut scratch = vec![0; library::SCRATCH_NUMBERS];
    let [old, new] = frames.map(|scene| scene.bytes());
    let mut context = Context::default();
    let mut places = [0; 16];
    let plan = library::plan(&old, &new, Mask::NONE, &mut places);
    assert_eq!(plan.code, 0);
    let planned: i32 = places.chunks(4).take(plan.count as usize).map(|r| r[2] * r[3]).sum();
    let area = library::redraw(&mut context, &old, &new, Mask::NONE, &mut surface, &mut scratch);
    assert_eq!(area.code, 0);
    let [mut whole, mut parts] = [Duration::MAX; 2];
    let begin = Instant::now();
    while begin.elapsed() < budget {
        for (from, to) in [(&old, &new), (&new, &old)] {
            whole =
                timed(|| library::redraw(&mut context, from, to, Mask::NONE, &mut surface, &mut scratch)).1.min(whole);
            parts = timed(|| library::redraw_planned(&mut context, from, to, Mask::NONE, &mut surface, &mut scratch))
                .1
                .min(parts);
        }
    }
    println!(
        "needle, door and lamp, one area: {} pixels, {:.1} us",
        area.width * area.height,
        1e6 * whole.as_secs_f64()
    );
    println!(
        "needle, door and lamp, {} planned rectangles: {planned} pixels, {:.1} us",
        plan.count,
        1e6 * parts.as_secs_f64()
    );
}
