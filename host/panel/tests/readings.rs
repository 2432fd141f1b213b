//! The panel for other readings than the files': within the format's limits, told apart without colours, and read at night.

use panel::{panel, Door, Light, Readings};
use reference::{rules, Rectangle};
use scene::{Draw, PaintType, Scene};

const MOST_DRAWS: usize = 64;
const MOST_SEGMENTS: usize = 128;
const MOST_COORDINATES: usize = 550;
const MOST_STOPS: usize = 31;
const SCALES: [f64; 2] = [1.0, 0.25];
const LIGHTS: [Light; 2] = [Light::Near, Light::Wide];

/// Readings from one end of every scale to the other, with all lamps off and on, by day and at night.
fn sweep() -> impl Iterator<Item = Readings> {
    (0..=25).map(|i| {
        let (share, on) = (f64::from(i) / 25.0, i % 2 == 1);
        Readings {
            speed: 125.0 * share,
            brake_pressure: [12.0 * share, 12.0 * (1.0 - share)],
            doors: [0, 1, 2].map(|door| Door::ALL[(i as usize + door) % 3]),
            stop_requested: on,
            parking_brake: !on,
            stop_brake: on,
            left_turn: on,
            right_turn: !on,
            low_beam: on,
            high_beam: !on,
            battery: on,
            engine: !on,
            fuel: share,
            coolant: 1.0 - share,
            night: i % 4 > 1,
            ..Readings::default()
        }
    })
}

/// Every scale with every light.
fn forms() -> impl Iterator<Item = (f64, Light)> {
    SCALES.into_iter().flat_map(|scale| LIGHTS.map(|light| (scale, light)))
}

#[test]
fn all_readings_are_accepted_with_the_same_draws() {
    for (scale, light) in forms() {
        let draws = panel(&Readings::default(), scale, light).draws.len();
        for readings in sweep() {
            let scene = panel(&readings, scale, light);
            rules::scene(&scene.bytes(), light == Light::Wide)
                .unwrap_or_else(|fault| panic!("{readings:?}: {fault:?}"));
            assert_eq!(scene.draws.len(), draws, "a lamp or door would move the draws behind it");
        }
    }
}

#[test]
fn within_the_limits_of_every_edition() {
    for readings in sweep() {
        for (scale, light) in forms() {
            let scene = panel(&readings, scale, light);
            assert!(scene.draws.len() <= MOST_DRAWS);
            for draw in &scene.draws {
                let (segments, coordinates) = (draw.path.segments.len(), draw.path.coordinates.len());
                assert!(segments <= MOST_SEGMENTS && coordinates <= MOST_COORDINATES, "{readings:?}");
                assert!(draw.stops.len() <= MOST_STOPS);
                let [sx, shy, shx, sy, ..] = draw.matrix.map(|v| (f64::from(v) * 65_536.0 + 0.5).floor() as i64);
                assert!(segments == 0 || sx * sy != shx * shy, "a flat matrix");
            }
        }
    }
}

/// A part of the panel in panel pixels: x, y, width, height.
type Part = [f64; 4];

const BRAKE_DIAL: Part = [616.0, 91.0, 388.0, 388.0];
const SECOND_DOOR: Part = [482.0, 210.0, 60.0, 122.0];
const GREAT_LAMPS: Part = [400.0, 362.0, 224.0, 98.0];
const SPEED_FIGURES: Part = [158.0, 156.0, 112.0, 58.0];
const WHOLE: Part = [0.0, 0.0, panel::WIDTH, panel::HEIGHT];

/// The pixels of a part of a scene's picture.
fn picture(scene: &Scene, part: Part, scale: f64) -> Vec<u8> {
    let scene = rules::scene(&scene.bytes(), true).expect("an accepted scene");
    let [x, y, width, height] = part.map(|v| (v * scale) as u32);
    let mut surface = vec![0; scene.surface_bytes()];
    reference::picture::store(&scene, Some(&panel::mask(scale)), Rectangle { x, y, width, height }, &mut surface);
    surface
}

/// A scene with nothing but the draws that differ from another's, white on black: shapes without their colours.
fn silhouette(scene: &Scene, other: &Scene) -> Scene {
    let pairs = scene.draws.iter().zip(&other.draws).filter(|(draw, other)| draw.bytes(0) != other.bytes(0));
    let white = |draw: &Draw| Draw { paint: PaintType::Color, color: [1.0; 4], stops: Vec::new(), ..draw.clone() };
    Scene { draws: pairs.map(|(draw, _)| white(draw)).collect(), background: [0, 0, 0, 255], ..scene.clone() }
}

/// The grey of every pixel, as the eye weighs red, green and blue.
fn greys(picture: &[u8]) -> Vec<u32> {
    let grey =
        |pixel: &[u8]| (299 * u32::from(pixel[0]) + 587 * u32::from(pixel[1]) + 114 * u32::from(pixel[2])) / 1_000;
    picture.chunks(4).map(grey).collect()
}

/// Pixels whose greys lie a quarter of the way from black to white apart, or more.
fn told_apart(one: &[u8], other: &[u8]) -> usize {
    greys(one).iter().zip(greys(other)).filter(|(&a, b)| a.abs_diff(*b) >= 64).count()
}

/// Every two states of the second door, in both sizes: their shapes alone and their greys differ in at least a
/// quarter of its doorway, which is 44 by 84 panel pixels.
#[test]
fn a_door_is_told_without_colours() {
    for scale in SCALES {
        let quarter = (44.0 * 84.0 * scale * scale / 4.0) as usize;
        let with = |door| {
            let doors = [Door::Open, door, Door::Closed];
            panel(&Readings { doors, ..Readings::default() }, scale, Light::Near)
        };
        let differing =
            |a: &Scene, b: &Scene| told_apart(&picture(a, SECOND_DOOR, scale), &picture(b, SECOND_DOOR, scale));
        for (one, other) in [(Door::Closed, Door::Moving), (Door::Moving, Door::Open), (Door::Open, Door::Closed)] {
            let (a, b) = (with(one), with(other));
            let counts = [differing(&silhouette(&a, &b), &silhouette(&b, &a)), differing(&a, &b)];
            assert!(counts.iter().all(|&count| count >= quarter), "{one:?} {other:?}: {counts:?} of {quarter}");
        }
    }
}

/// One circuit's needle is solid, the other's hollow: for the same pressure they are no mirror images.
#[test]
fn the_circuits_are_told_by_shape() {
    let scene = |pressures| panel(&Readings { brake_pressure: pressures, ..Readings::default() }, 1.0, Light::Near);
    // Of the draws that a pressure changes the needle is the last, behind its figures and its shadow.
    let needle = |pressures| {
        let mut changed = silhouette(&scene(pressures), &scene([6.0, 6.0]));
        changed.draws.drain(..changed.draws.len() - 1);
        picture(&changed, BRAKE_DIAL, 1.0)
    };
    let (solid, hollow) = (needle([9.0, 6.0]), needle([6.0, 9.0]));
    let [left, bottom, width, height] = BRAKE_DIAL.map(|v| v as usize);
    let covered = |picture: &[u8], x: usize, y: usize| picture[4 * (y * panel::WIDTH as usize + x)] >= 128;
    let places = (bottom..bottom + height).flat_map(|y| (0..width).map(move |i| (left + i, left + width - 1 - i, y)));
    let differing = places.filter(|&(x, mirrored, y)| covered(&solid, x, y) != covered(&hollow, mirrored, y));
    let count = differing.count();
    assert!(count > 500, "{count}");
}

/// A stop that is requested, and a parking brake that is on, by day and at night.
#[test]
fn a_lit_lamp_is_told_from_a_dark_one() {
    let day = Readings::default();
    for (now, (scale, light)) in
        [&day, &day.at_night()].into_iter().flat_map(|now| forms().map(move |form| (now, form)))
    {
        let off = Readings { stop_requested: false, parking_brake: false, ..now.clone() };
        let lit = [Readings { stop_requested: true, ..off.clone() }, Readings { parking_brake: true, ..off.clone() }];
        let lamps = |readings: &Readings| picture(&panel(readings, scale, light), GREAT_LAMPS, scale);
        for readings in &lit {
            let count = told_apart(&lamps(&off), &lamps(readings));
            assert!(count as f64 > 500.0 * scale * scale, "{count} at {scale}");
        }
    }
}

/// At night no pixel is brighter than by day, and the panel has less than half of its light.
#[test]
fn the_night_is_darker() {
    let day = Readings::default();
    let night = Readings { night: true, ..day.clone() };
    let [day, night] = [day, night].map(|readings| picture(&panel(&readings, 0.25, Light::Near), WHOLE, 0.25));
    // Rounding may make up for one step.
    assert!(day.iter().zip(&night).all(|(&day, &night)| night <= day.saturating_add(1)));
    let light = |picture: &[u8]| greys(picture).iter().sum::<u32>();
    assert!(2 * light(&night) < light(&day), "{} of {}", light(&night), light(&day));
}

/// Speeds whose figures share no digit, in full size, where the figures have 40 rows: hundreds of pixels tell them apart.
#[test]
fn figures_are_read_at_night() {
    let with = |speed| Readings { speed, ..Readings::default().at_night() };
    let figures = |speed| picture(&panel(&with(speed), 1.0, Light::Near), SPEED_FIGURES, 1.0);
    for (one, other) in [(4.0, 88.0), (17.0, 52.0), (60.0, 93.0)] {
        let count = told_apart(&figures(one), &figures(other));
        assert!(count > 300, "{one} and {other}: {count}");
    }
}

/// Wide light changes no pixel on a bezel or outside, where the mask is 0, and fades towards it.
#[test]
fn wide_light_stays_within_the_bezels() {
    let scale = 0.25;
    let with = |on: bool| {
        let lamps = Readings { stop_requested: on, parking_brake: on, left_turn: on, ..Readings::default() };
        picture(&panel(&lamps, scale, Light::Wide), WHOLE, scale)
    };
    let (lit, dark, mask) = (with(true), with(false), panel::mask(scale));
    let differing = |least: u8, most: u8| {
        let pixels = lit.chunks(4).zip(dark.chunks(4)).zip(&mask).filter(|(_, &byte)| least <= byte && byte <= most);
        let differences =
            pixels.map(|((lit, dark), _)| u64::from(lit[0].abs_diff(dark[0]).max(lit[1].abs_diff(dark[1]))));
        let (count, sum) = differences.fold((0, 0), |(count, sum), difference| (count + 1, sum + difference));
        sum as f64 / f64::from(count)
    };
    let (outside, edge, inner) = (differing(0, 0), differing(1, 127), differing(128, 255));
    assert!(outside == 0.0 && 1.0 < edge && 3.0 * edge < inner, "{outside} {edge} {inner}");
}

/// The mask of the great and the small lamps: a byte for each pixel, nothing at the panel's edges, all at the lamps.
#[test]
fn the_mask_shows_the_lamps() {
    for scale in SCALES {
        let mask = panel::mask(scale);
        let (width, height) = ((panel::WIDTH * scale) as usize, (panel::HEIGHT * scale) as usize);
        assert_eq!(mask.len(), width * height);
        let at = |x: f64, y: f64| mask[(y * scale) as usize * width + (x * scale) as usize];
        for (x, y) in [(457.0, 411.0), (567.0, 411.0), (311.0, 537.0), (512.0, 537.0), (713.0, 537.0)] {
            assert_eq!(at(x, y), 255, "{x} {y}");
        }
        for (x, y) in [(0.0, 0.0), (1_023.0, 599.0), (214.0, 285.0), (810.0, 285.0), (512.0, 462.0), (512.0, 490.0)] {
            assert_eq!(at(x, y), 0, "{x} {y}");
        }
    }
}
