//! Random colour transformations: scales and biases, and the values where they are cut or rounded.

use crate::Random;

/// Four scales and four biases; none is a NaN.
pub fn transformation(random: &mut Random) -> [f32; 8] {
    match random.range(0, 7) {
        0 => scene::IDENTITY,
        // As for a dark night: less of everything, least of blue.
        1 | 2 => {
            let light = random.unit();
            let colors = [light, light * random.unit(), light * random.unit()];
            [colors[0], colors[1], colors[2], 1.0, 0.0, 0.0, 0.0, 0.0]
        }
        // A negative picture, or a paint that shows where it was transparent.
        3 => [-1.0, -1.0, -1.0, random.pick(&[1.0, -1.0]), 1.0, 1.0, 1.0, random.pick(&[0.0, 1.0])],
        4 => std::array::from_fn(|i| if i < 4 { near_a_step(random, 1.0) } else { near_a_step(random, 0.1) }),
        5 => std::array::from_fn(|_| extreme(random)),
        _ => std::array::from_fn(|i| if i < 4 { random.float(-0.5, 2.5) } else { random.float(-1.1, 1.1) }),
    }
}

/// (n + 1/2) / 256 or a neighbour: where rounding changes sides.
fn near_a_step(random: &mut Random, size: f32) -> f32 {
    let steps = (256.0 * random.float(-size, size)).floor();
    let middle = (steps + 0.5) / 256.0;
    f32::from_bits(middle.to_bits().wrapping_add(random.range(-1, 1) as u32))
}

fn extreme(random: &mut Random) -> f32 {
    let size = random.pick(&[0.0, 1e-40, 1.0, 1.0001, 2.0, 126.99, 127.0, 127.1, 1e9, f32::MAX, f32::INFINITY]);
    if random.once_in(2) {
        -size
    } else {
        size
    }
}
