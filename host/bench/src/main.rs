//! Times full drawings and quick redraws through libwayramesh.a, and prints a table.
//!
//!     cargo run --offline --release -p bench [SECONDS [PART]]
//!     cargo run --offline --release -p bench SECONDS file SCENE..
//!
//! Each part takes about SECONDS (2); all are timed, or the named one. A workload is a scene and its next frame: `panel`,
//! `panel needle`, `panel small`, `panel night`, `largest`. Full drawings and redraws take turns in one run: a frame is drawn, then redrawn to the other.
//! The buffers are not cleared between calls. A redraw's time includes the rules on both scenes, a full drawing's those on
//! one. Then come the stages of the full drawing of the first frame. The other parts are `paints`, a full drawing in each
//! kind of paint, `blending`, blended pixels alone, `masks`, a lamp under masks, `plain`, the plain engine beside the quick one,
//! `plans`, a redraw in one area and in planned rectangles, `compare`, and `replay`, a minute of the panel in one call and call
//! by call. With `file` the named scenes are drawn in full, in turn.
#![forbid(unsafe_code)]

mod blending;
mod compare;
mod files;
mod masks;
mod plain;
mod plans;
mod replay;
mod stages;
mod workloads;

use std::time::{Duration, Instant};

use library::{Context, Mask};
use scene::PaintType;
use stages::Versions;
use workloads::Workload;

const HELP: &str = "\
usage: bench [SECONDS [PART]]
       bench SECONDS file SCENE..

Times calls of the library, each for so many seconds, 2 if none are given, and prints a table. A part alone is one of its
workloads by name, or paints, blending, masks, plain, plans, compare or replay. With file the named scenes are drawn in full.
";

fn main() {
    let arguments = tool::arguments(HELP);
    let seconds = arguments.first().map_or(Ok(2.0), |text| text.parse::<f64>());
    let budget = match seconds {
        Ok(seconds) if (0.0..=3_600.0).contains(&seconds) => Duration::from_secs_f64(seconds),
        _ => tool::usage(HELP),
    };
    let chosen = arguments.get(1);
    if chosen.map_or(false, |part| part == "file") {
        if arguments.len() == 2 {
            tool::usage(HELP);
        }
        return files::print(&arguments[2..], budget);
    }
    let wanted = |part: &str| chosen.map_or(true, |name| name == part);
    print_workloads(workloads::all().into_iter().filter(|workload| wanted(workload.name)).collect(), budget);
    if wanted("paints") {
        print_paints(budget);
    }
    if wanted("blending") {
        blending::print(budget);
    }
    if wanted("masks") {
        masks::print(budget);
    }
    if wanted("plain") {
        plain::print(budget);
    }
    if wanted("plans") {
        plans::print(budget);
    }
    if wanted("compare") {
        compare::print(budget);
    }
    if wanted("replay") {
        replay::print(budget);
    }
}

/// A line for each workload, and its stages below.
fn print_workloads(workloads: Vec<Workload>, budget: Duration) {
    if workloads.is_empty() {
        return;
    }
    println!(
        "{:<14} {:>10} {:>10} {:>10} {:>10} {:>8} {:>7}",
        "", "full", "median", "redraw", "median", "area", "ratio"
    );
    for workload in workloads {
        print_line(&workload, whole_calls(&workload, budget));
        print_stages(&workload, budget);
    }
    println!("Times in microseconds, the best and the median. Area: the redrawn share of the surface. Ratio: redraw to full.");
    println!(
        "Stages: the difference of the best times of drawings that stop short, and its share of the full drawing."
    );
}

/// A dial in each kind of paint, by day and transformed, in turn: the best time of a full drawing for each pixel.
fn print_paints(budget: Duration) {
    const SIDE: u16 = 512;
    let kinds = [("colour", PaintType::Color), ("linear", PaintType::Linear), ("radial", PaintType::Radial)];
    let times = [("", false), (", transformed", true)];
    let dials: Vec<(String, Vec<u8>)> = times
        .iter()
        .flat_map(|(time, on)| {
            kinds.map(|(name, paint)| (format!("{name}{time}"), workloads::dial(paint, SIDE, *on).bytes()))
        })
        .collect();
    let pixels = usize::from(SIDE) * usize::from(SIDE);
    let mut surface = vec![0; 4 * pixels];
    let mut scratch = vec![0; library::SCRATCH_NUMBERS];
    let mut best = vec![Duration::MAX; dials.len()];
    let begin = Instant::now();
    while begin.elapsed() < budget {
        for ((_, scene), best) in dials.iter().zip(&mut best) {
            let (answer, time) =
                timed(|| library::draw(&mut Context::default(), scene, Mask::NONE, &mut surface, &mut scratch));
            assert_eq!(answer.code, 0);
            *best = time.min(*best);
        }
    }
    for ((name, _), time) in dials.iter().zip(best) {
        println!("dial, {name}: {:.1} ns a pixel", time.as_secs_f64() * 1e9 / pixels as f64);
    }
}

struct Times {
    full: Vec<Duration>,
    redraw: Vec<Duration>,
    /// The share of the surface that the redraw writes.
    area: f64,
}

/// Full drawings and redraws in turn; at least a few, however long they take.
fn whole_calls(workload: &Workload, budget: Duration) -> Times {
    let frames = &workload.frames;
    let mut surface = vec![0; workload.surface_bytes];
    let mut scratch = vec![0; library::SCRATCH_NUMBERS];
    let mut times = Times { full: Vec::new(), redraw: Vec::new(), area: 0.0 };
    let begin = Instant::now();
    while times.full.len() < 4 || begin.elapsed() < budget {
        for (from, to) in [(0, 1), (1, 0)] {
            let (answer, time) =
                timed(|| library::draw(&mut Context::default(), &frames[from], Mask::NONE, &mut surface, &mut scratch));
            assert_eq!(answer.code, 0, "{}", workload.name);
            times.full.push(time);
            let whole = f64::from(answer.width) * f64::from(answer.height);
            let (answer, time) = timed(|| {
                library::redraw(
                    &mut Context::default(),
                    &frames[from],
                    &frames[to],
                    Mask::NONE,
                    &mut surface,
                    &mut scratch,
                )
            });
            assert_eq!(answer.code, 0, "{}", workload.name);
            times.redraw.push(time);
            times.area = f64::from(answer.width) * f64::from(answer.height) / whole;
        }
    }
    let shown = surface.clone();
    let answer = library::draw(&mut Context::default(), &frames[0], Mask::NONE, &mut surface, &mut scratch);
    assert_eq!(answer.code, 0, "{}", workload.name);
    assert!(surface == shown, "{}: the redraw left another picture than the full drawing", workload.name);
    times
}

/// The stages of the first frame's full drawing. Its versions take turns, so that all meet the same machine.
fn print_stages(workload: &Workload, budget: Duration) {
    let versions = Versions::of(&workload.scene);
    let mut surface = vec![0; workload.surface_bytes];
    let mut scratch = vec![0; library::SCRATCH_NUMBERS];
    let [mut judged, mut bare, mut outside, mut framed, mut hidden, mut full] = [Duration::MAX; 6];
    let begin = Instant::now();
    let mut turns = 0;
    while turns < 4 || begin.elapsed() < budget {
        let (answer, time) =
            timed(|| library::draw(&mut Context::default(), &versions.full, Mask::NONE, &mut surface, &mut []));
        assert_eq!(answer.code, library::OUT_OF_MEMORY, "{}", workload.name);
        judged = judged.min(time);
        for (scene, least) in [
            (&versions.bare, &mut bare),
            (&versions.outside, &mut outside),
            (&versions.framed, &mut framed),
            (&versions.hidden, &mut hidden),
            (&versions.full, &mut full),
        ] {
            let (answer, time) =
                timed(|| library::draw(&mut Context::default(), scene, Mask::NONE, &mut surface, &mut scratch));
            assert_eq!(answer.code, 0, "{}", workload.name);
            *least = time.min(*least);
        }
        turns += 1;
    }
    let colors = framed.saturating_sub(hidden);
    for (name, time) in [
        ("rules", judged),
        ("background", bare),
        ("edges", outside.saturating_sub(judged + bare)),
        ("coverage", full.saturating_sub(outside + colors)),
        ("paint, blend", colors),
    ] {
        println!("  {:<12} {} {:>9.1}%", name, micros(time), 100.0 * time.as_secs_f64() / full.as_secs_f64());
    }
}

fn timed<T>(run: impl FnOnce() -> T) -> (T, Duration) {
    let begin = Instant::now();
    let result = run();
    (result, begin.elapsed())
}

fn print_line(workload: &Workload, times: Times) {
    let (full, redraw) = (best(&times.full), best(&times.redraw));
    println!(
        "{:<14} {} {} {} {} {:>7.2}% {:>7.3}",
        workload.name,
        micros(full),
        micros(median(&times.full)),
        micros(redraw),
        micros(median(&times.redraw)),
        100.0 * times.area,
        redraw.as_secs_f64() / full.as_secs_f64(),
    );
}

fn micros(time: Duration) -> String {
    format!("{:>10.1}", 1e6 * time.as_secs_f64())
}

fn best(times: &[Duration]) -> Duration {
    times.iter().copied().min().unwrap_or_default()
}

fn median(times: &[Duration]) -> Duration {
    let mut sorted = times.to_vec();
    sorted.sort();
    sorted[sorted.len() / 2]
}
