//! What is timed: a scene and its next frame each.

use generate::{scenes, Random};
use panel::{Light, Readings};
use scene::{Draw, PaintType, Path, Scene, Stop};

pub struct Workload {
    pub name: &'static str,
    /// The first frame.
    pub scene: Scene,
    pub frames: [Vec<u8>; 2],
    pub surface_bytes: usize,
}

impl Workload {
    fn new(name: &'static str, frames: [Scene; 2]) -> Workload {
        Workload {
            name,
            surface_bytes: frames[0].surface_bytes(),
            scene: frames[0].clone(),
            frames: frames.map(|scene| scene.bytes()),
        }
    }
}

pub fn all() -> Vec<Workload> {
    let day = Readings::default();
    let night = day.at_night();
    vec![panel_at("panel", 1.0, &day), needle(), small_panel(), panel_at("panel night", 1.0, &night), largest()]
}

/// The panel at a quarter of its sides.
pub fn small_panel() -> Workload {
    panel_at("panel small", 0.25, &Readings::default())
}

/// The panel and its next frame: the speed needle and a door have moved.
fn panel_at(name: &'static str, scale: f64, now: &Readings) -> Workload {
    Workload::new(name, [now, &now.next()].map(|readings| panel::panel(readings, scale, Light::Near)))
}

/// The panel and the same with its speed needle moved alone.
fn needle() -> Workload {
    let now = Readings::default();
    let next = Readings { speed: now.speed / 2.0, ..now.clone() };
    Workload::new("panel needle", [now, next].map(|readings| panel::panel(&readings, 1.0, Light::Near)))
}

/// 64 draws of 128 curves on 1,024 by 1,024 pixels. All but the last cover the surface; the last, an eighth of it
/// each way, moves by a pixel.
fn largest() -> Workload {
    let mut scene = scenes::largest(&mut Random::new(1), 1_024, 1_024);
    let moving = scenes::largest(&mut Random::new(2), 128, 128).draws.swap_remove(0);
    let at_column = |tx: f32| {
        let mut draw = moving.clone();
        draw.matrix[4..].copy_from_slice(&[tx, 448.0]);
        draw
    };
    scene.draws[63] = at_column(448.0);
    let mut next = scene.clone();
    next.draws[63] = at_column(449.0);
    Workload::new("largest", [scene, next])
}

/// A surface of a side, all of it in one draw of a paint: a dial's colours from its middle out, or from the left to the
/// right, by day or transformed as at night.
pub fn dial(paint: PaintType, side: u16, transformed: bool) -> Scene {
    let (end, middle) = (f32::from(side), f32::from(side) / 2.0);
    let stop = |offset, grey| Stop { offset, color: [grey, grey, grey, 1.0] };
    let mut scene = Scene { edition: 1, ..Scene::new(side, side, [0; 4]) };
    scene.draws.push(Draw {
        paint,
        transformed,
        transformation: [0.8, 0.4, 0.25, 1.0, 0.0, 0.0, 0.0, 0.0],
        linear: [0.0, 0.0, end, middle],
        radial: [middle, middle, middle - 16.0, middle - 24.0, middle],
        stops: vec![stop(0.0, 0.2), stop(0.6, 0.9), stop(1.0, 0.1)],
        path: Path::new().rectangle(0, 0, side as i16, side as i16),
        ..Draw::default()
    });
    scene
}

#[cfg(test)]
mod tests {
    use library::{Context, Mask};

    /// With no scratch a call gets as far as the scratch only if its scenes are accepted.
    #[test]
    fn the_frames_are_accepted() {
        for workload in super::all() {
            let [old, new] = &workload.frames;
            let answer = library::redraw(
                &mut Context::default(),
                old,
                new,
                Mask::NONE,
                &mut vec![0; workload.surface_bytes],
                &mut [],
            );
            assert_eq!(answer.code, library::OUT_OF_MEMORY, "{}", workload.name);
        }
    }
}
