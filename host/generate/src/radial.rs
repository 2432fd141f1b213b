//! Random radial gradients: few are refused.

use crate::Random;

/// The greatest size of each of the five values.
const LIMIT: f32 = 1_024.0;

/// cx, cy, fx, fy, r for a surface of this size.
pub fn radial(random: &mut Random, width: u16, height: u16) -> [f32; 5] {
    let (width, height) = (f32::from(width), f32::from(height));
    let (cx, cy) = (random.float(-0.5, 1.5) * width, random.float(-0.5, 1.5) * height);
    let r = random.float(0.1, 1.5) * width.max(height);
    let values = match random.range(0, 19) {
        0 => [width / 2.0, height / 2.0, width / 2.0, height / 2.0, width / 2.0],
        // No circle, wherever the focal point is; as a whole number of 1/16 only, too.
        1 => [cx, cy, random.float(-LIMIT, LIMIT), cy, random.pick(&[0.0, -0.0, -1.0, -r, 1.0 / 33.0])],
        // So small that t is far above 65,536.
        2 => [cx, cy, cx, cy, random.pick(&[1.0 / 16.0, 1.0 / 32.0, 0.1, 1.0])],
        3 => [LIMIT, -LIMIT, LIMIT, -LIMIT, LIMIT],
        4 => [-LIMIT, cy, 1.0 / 16.0 - LIMIT, cy, random.pick(&[LIMIT, r])],
        // The focal point within a unit or two of the circle.
        5 | 6 => {
            let whole = (16.0 * r).floor() / 16.0;
            let distance = whole - random.pick(&[1.0, 1.0, 1.5, 2.0]) / 16.0;
            let center = (cx.floor(), cy.floor());
            let (dx, dy) = random.pick(&[(distance, 0.0), (-distance, 0.0), (0.0, distance), (0.0, -distance)]);
            [center.0, center.1, center.0 + dx, center.1 + dy, whole]
        }
        7 if random.once_in(4) => [cx, cy, cx + r, cy, r],
        _ => {
            let (angle, distance) = (random.float(0.0, std::f32::consts::TAU), random.float(0.0, 0.9) * r);
            [cx, cy, cx + distance * angle.cos(), cy + distance * angle.sin(), r]
        }
    };
    values.map(|v| v.clamp(-LIMIT, LIMIT))
}
