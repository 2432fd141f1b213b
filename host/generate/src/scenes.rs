//! Random scenes, most of them accepted, and pairs of them for a redraw.

use scene::{Blend, Draw, FillRule, PaintType, Scene, Scissor, Spread, Stop, IDENTITY};

use crate::paths::{frame, path};
use crate::radial::radial;
use crate::transforms::transformation;
use crate::Random;

/// A scene of up to `side` pixels each way and up to `draws` draws.
pub fn scene(random: &mut Random, side: i32, draws: i32) -> Scene {
    let width = side_of(random, side);
    let height = side_of(random, side);
    let draws = random.range(0, draws);
    sized_scene(random, width, height, draws)
}

/// A scene of this size with so many draws: of either edition, and every second one with draws that ask for a mask.
pub fn sized_scene(random: &mut Random, width: u16, height: u16, draws: i32) -> Scene {
    let mut scene = Scene::new(width, height, background(random));
    scene.draws = (0..draws).map(|_| draw(random, width, height)).collect();
    scene.edition = random.range(0, 1) as u16;
    let asking = random.once_in(2);
    for draw in &mut scene.draws {
        draw.masked = asking && random.once_in(2);
        if scene.edition == 1 {
            draw.transformed = random.once_in(2);
            draw.transformation = transformation(random);
        }
    }
    scene
}

fn side_of(random: &mut Random, side: i32) -> u16 {
    let side = if random.once_in(6) { random.pick(&[1, 2, 3, side]) } else { random.range(1, side) };
    side as u16
}

fn background(random: &mut Random) -> [u8; 4] {
    let any = random.byte();
    let alpha = random.pick(&[0, 1, 128, 255, 255, any]);
    [random.byte(), random.byte(), random.byte(), alpha]
}

/// A draw on a surface of this size, without a mask and with its transformation off.
pub fn draw(random: &mut Random, width: u16, height: u16) -> Draw {
    let frame = frame(random, width, height);
    let segments = match random.range(0, 19) {
        0 => 0,
        1 => 1,
        2 => random.range(40, 128),
        _ => random.range(2, 14),
    };
    let paint = random.pick(&PaintType::ALL);
    Draw {
        fill_rule: random.pick(&[FillRule::EvenOdd, FillRule::NonZero]),
        scissoring: random.once_in(4),
        premultiplied_ramp: random.once_in(2),
        masked: false,
        transformed: false,
        blend: random.pick(&Blend::ALL),
        paint,
        spread: random.pick(&Spread::ALL),
        matrix: frame.matrix,
        color: color(random),
        linear: linear(random, width, height),
        radial: radial(random, width, height),
        scissors: (0..random.range(0, 4)).map(|_| scissor(random, width, height)).collect(),
        stops: stops(random, if paint == PaintType::Radial { 31 } else { 32 }),
        transformation: IDENTITY,
        path: path(random, segments as usize, frame.reach),
    }
}

fn color(random: &mut Random) -> [f32; 4] {
    let mut color = std::array::from_fn(|_| channel(random));
    if random.once_in(2) {
        color[3] = 1.0;
    }
    color
}

fn channel(random: &mut Random) -> f32 {
    match random.range(0, 9) {
        0 => random.pick(&[0.0, -0.0, 1.0, 0.5, 1e-40, f32::INFINITY, f32::NEG_INFINITY, f32::MAX, -3.0, 1.5]),
        1 | 2 => f32::from(random.byte()) / 255.0,
        // Where the fraction changes sides: (c + 1/2) / 255 and its neighbours.
        3 => {
            let middle = (f32::from(random.byte()) + 0.5) / 255.0;
            f32::from_bits(middle.to_bits().wrapping_add(random.range(-2, 2) as u32))
        }
        _ => random.unit(),
    }
}

fn linear(random: &mut Random, width: u16, height: u16) -> [f32; 4] {
    let (width, height) = (f32::from(width), f32::from(height));
    let near = |random: &mut Random| {
        [
            random.float(-0.5, 1.5) * width,
            random.float(-0.5, 1.5) * height,
            random.float(-0.5, 1.5) * width,
            random.float(-0.5, 1.5) * height,
        ]
    };
    match random.range(0, 9) {
        // The same point, as given or as whole numbers of 1/256.
        0 => [3.0, 2.0, 3.0, 2.0],
        1 => [3.0, 2.0, 3.001, 2.0],
        // So near to each other that t is far from 0..65,536.
        2 => [width / 2.0, height / 2.0, width / 2.0 + 1.0 / 256.0, height / 2.0],
        3 => std::array::from_fn(|_| random.pick(&[4_096.0, -4_096.0, 0.0])),
        4 => [0.0, 0.0, width, 0.0],
        5 => [0.0, height, 0.0, 0.0],
        6 => [width / 3.0, 0.0, width / 3.0 - random.unit(), random.unit()],
        _ => near(random),
    }
}

fn scissor(random: &mut Random, width: u16, height: u16) -> Scissor {
    let (width, height) = (i32::from(width), i32::from(height));
    let extreme = [i32::MIN, i32::MIN + 1, -1, 0, 1, i32::MAX - 1, i32::MAX];
    match random.range(0, 7) {
        0 => Scissor {
            x: random.pick(&extreme),
            y: random.pick(&extreme),
            width: random.pick(&extreme),
            height: random.pick(&extreme),
        },
        1 => Scissor { x: 0, y: 0, width, height },
        2 => Scissor { x: i32::MIN, y: i32::MIN, width: i32::MAX, height: i32::MAX },
        3 => Scissor { x: -5, y: -5, width: i32::MAX, height: random.range(-2, height + 6) },
        _ => Scissor {
            x: random.range(-3, width + 2),
            y: random.range(-3, height + 2),
            width: random.range(-1, width + 4),
            height: random.range(-1, height + 4),
        },
    }
}

/// Up to `most` stops.
fn stops(random: &mut Random, most: i32) -> Vec<Stop> {
    let count = match random.range(0, 7) {
        0 => 0,
        1 => 1,
        2 => most,
        _ => random.range(2, 6),
    };
    let mut offsets: Vec<f32> = (0..count).map(|_| offset(random)).collect();
    // Left as they fall now and then, and otherwise in order.
    if !random.once_in(8) {
        offsets.sort_by(f32::total_cmp);
    }
    offsets.into_iter().map(|offset| Stop { offset, color: color(random) }).collect()
}

fn offset(random: &mut Random) -> f32 {
    match random.range(0, 7) {
        0 => random.pick(&[0.0, 1.0, 0.25, 0.5]),
        1 => random.pick(&[-0.0, 1e-6, 1e-40, 0.99999, 0.999999, 7.7e-6, 0.5, 0.5000001]),
        2 => random.pick(&[f32::INFINITY, f32::NEG_INFINITY, -0.1, 1.1, -1e-45, 1.0000001, f32::MAX]),
        _ => random.unit(),
    }
}

/// A scene that follows `old` on the same surface: few things change, many, or none.
pub fn next_scene(random: &mut Random, old: &Scene) -> Scene {
    let mut new = old.clone();
    for _ in 0..random.pick(&[0, 1, 1, 1, 2, 3]) {
        change(random, &mut new);
    }
    if random.once_in(12) {
        new.background = background(random);
    }
    // The other edition, with every transformation off.
    if random.once_in(12) {
        new.edition = 1 - new.edition;
        new.draws.iter_mut().for_each(|draw| draw.transformed = false);
    }
    new
}

fn change(random: &mut Random, scene: &mut Scene) {
    let (width, height) = (scene.width, scene.height);
    if scene.draws.is_empty() {
        scene.draws.push(draw(random, width, height));
        return;
    }
    let at = random.index(scene.draws.len());
    let changed = &mut scene.draws[at];
    match random.range(0, 11) {
        0 => *changed = draw(random, width, height),
        // A needle that moves.
        1 | 2 => {
            changed.matrix[4] += random.float(-4.0, 4.0);
            changed.matrix[5] += random.float(-4.0, 4.0);
            for entry in &mut changed.matrix[4..] {
                *entry = entry.clamp(-32_768.0, 32_768.0);
            }
        }
        // A lamp that changes colour.
        3 => changed.color = color(random),
        4 => changed.blend = random.pick(&Blend::ALL),
        // Other bytes that draw the same.
        5 => changed.matrix = changed.matrix.map(|v| if v == 0.0 { -v } else { v }),
        6 => changed.masked = !changed.masked,
        // Day and night; in edition 0 there is neither.
        7 => changed.transformed = scene.edition == 1 && !changed.transformed,
        8 => changed.transformation = transformation(random),
        9 => {
            scene.draws.remove(at);
        }
        10 if scene.draws.len() < 64 => scene.draws.insert(at, draw(random, width, height)),
        _ => {
            scene.draws.pop();
        }
    }
}

/// The largest scene that the format allows on a surface of this size: 64 draws of 128 curves.
pub fn largest(random: &mut Random, width: u16, height: u16) -> Scene {
    let mut scene = Scene::new(width, height, [20, 30, 40, 255]);
    let reach = (i32::from(width.max(height)) * 16).min(32_767);
    for _ in 0..64 {
        let mut draw = Draw { color: color(random), ..draw(random, width, height) };
        draw.matrix = [0.0625, 0.0, 0.0, 0.0625, 0.0, 0.0];
        draw.scissoring = false;
        draw.path = curves(random, reach);
        scene.draws.push(draw);
    }
    scene
}

/// 128 quads and no move: 2,049 edges with the closing one.
fn curves(random: &mut Random, reach: i32) -> scene::Path {
    (0..128).fold(scene::Path::new(), |path, _| {
        let mut coordinate = || random.range(0, reach - 1) as i16;
        path.quad_to((coordinate(), coordinate()), (coordinate(), coordinate()))
    })
}
