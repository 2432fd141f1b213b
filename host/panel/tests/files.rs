//! The files of the folder scenes are the generator's, and the two frames of a pair differ where they should and nowhere
//! else.

use std::fs;
use std::path::Path;

use panel::{Light, Readings};
use reference::path::{Edge, Point};
use reference::picture::SCRATCH_NUMBERS;
use reference::redraw::damage;
use reference::rules;
use scene::Scene;

/// What may change between the frames, in panel pixels: the speed dial, and the second door with its word; with wide light
/// the strip of small lamps.
const SPEED_DIAL: Area = Area { left: 20, right: 408, bottom: 91, top: 479 };
const SECOND_DOOR: Area = Area { left: 482, right: 542, bottom: 210, top: 330 };
const STRIP: Area = Area { left: 220, right: 804, bottom: 500, top: 574 };

#[derive(Clone, Copy)]
struct Area {
    left: i64,
    right: i64,
    bottom: i64,
    top: i64,
}

impl Area {
    /// Whether a path lies in the area; the panel is so many times smaller than in panel pixels.
    fn holds(&self, edges: &[Edge], times: i64) -> bool {
        let within = |low: i64, value: i64, high: i64| 256 * low <= value * times && value * times <= 256 * high;
        let holds = |point: Point| within(self.left, point.x, self.right) && within(self.bottom, point.y, self.top);
        edges.iter().all(|edge| holds(edge.from) && holds(edge.to))
    }
}

/// The pairs of the folder: in full size, in a quarter of it, and with wide light.
fn pairs() -> [[Scene; 2]; 3] {
    let scenes: Vec<Scene> = panel::files().into_iter().map(|(_, scene)| scene).collect();
    [0, 2, 4].map(|i| [scenes[i].clone(), scenes[i + 1].clone()])
}

fn accepted(scene: &Scene) -> rules::Scene {
    rules::scene(&scene.bytes(), true).unwrap_or_else(|fault| panic!("{fault:?}"))
}

fn picture(scene: &Scene, mask: Option<&[u8]>) -> Vec<u8> {
    let mut surface = vec![0; scene.surface_bytes()];
    assert_eq!(reference::draw(&scene.bytes(), mask, &mut surface, &mut vec![0; SCRATCH_NUMBERS]).code, 0);
    surface
}

#[test]
fn the_folder_holds_what_the_generator_writes() {
    let folder = Path::new(env!("CARGO_MANIFEST_DIR")).join("../../scenes");
    let scenes = panel::files().into_iter().map(|(name, scene)| (name, scene.bytes()));
    for (name, bytes) in scenes.chain([panel::mask_file()]) {
        let stored = fs::read(folder.join(name)).expect(name);
        assert!(stored == bytes, "{name}: make it again with `cargo run --bin panel ../scenes`");
    }
}

/// Figures, shadow and needle, and the second door's leaves; in full size, where it can be read, its word too. With wide
/// light, the turn signal and its light.
#[test]
fn only_what_must_change_is_changed() {
    let [full, small, soft] = pairs();
    for (frames, times, places) in [
        (full, 1, &[(SPEED_DIAL, 3), (SECOND_DOOR, 2)][..]),
        (small, 4, &[(SPEED_DIAL, 3), (SECOND_DOOR, 1)]),
        (soft, 1, &[(STRIP, 2)]),
    ] {
        let [old, new] = [0, 1].map(|i| accepted(&frames[i]));
        assert_eq!(old.draws.len(), new.draws.len());
        let pairs = old.draws.iter().zip(&new.draws);
        let changed: Vec<_> = pairs.filter(|(old, new)| old.bytes != new.bytes).collect();
        for (area, count) in places {
            let lies = |draw: &rules::Draw| area.holds(&draw.edges, times);
            assert_eq!(changed.iter().filter(|(old, new)| lies(old) && lies(new)).count(), *count);
        }
        assert_eq!(changed.len(), places.iter().map(|(_, count)| count).sum());
        let area = damage(&old, &new);
        assert!(area.width * area.height > 0 && area.width * area.height < old.width * old.height / 6, "{area:?}");
    }
}

/// The small panel, and one with wide light, drawn and redrawn, end in the picture of their next frame.
#[test]
fn the_redraw_is_the_next_frame() {
    let [_, small, _] = pairs();
    let now = Readings::default();
    let dark = Readings { right_turn: false, ..now.clone() };
    let soft = [now, dark].map(|readings| panel::panel(&readings, 0.25, Light::Wide));
    let mask = panel::mask(0.25);
    for ([old, new], mask) in [(small, None), (soft, Some(&mask[..]))] {
        let mut surface = picture(&old, mask);
        let mut scratch = vec![0; SCRATCH_NUMBERS];
        assert_eq!(reference::redraw(&old.bytes(), &new.bytes(), mask, &mut surface, &mut scratch).code, 0);
        assert!(surface == picture(&new, mask));
    }
}

/// Without its mask the pair with wide light is refused, at the flags of the first lamp.
#[test]
fn wide_light_asks_for_the_mask() {
    let [_, _, soft] = pairs();
    for scene in soft {
        let first = scene.draws.iter().position(|draw| draw.masked).expect("a lamp");
        let fault = rules::scene(&scene.bytes(), false).map(|_| ()).expect_err("a fault");
        assert_eq!((fault.code, fault.draw as usize, fault.offset), (0x1001, first, scene::file_offset(first, 0)));
    }
}

/// From day to night every draw is changed: all but a margin round the board and the dials' shadows is redrawn.
#[test]
fn the_redraw_into_the_night() {
    let day = Readings::default();
    let night = Readings { night: true, ..day.clone() };
    let [day, night] = [day, night].map(|readings| panel::panel(&readings, 0.25, Light::Near));
    let mut surface = picture(&day, None);
    let answer = reference::redraw(&day.bytes(), &night.bytes(), None, &mut surface, &mut vec![0; SCRATCH_NUMBERS]);
    assert_eq!([answer.code, answer.x, answer.y, answer.width, answer.height], [0, 1, 2, 255, 147]);
    assert!(surface == picture(&night, None));
}
