//! Where the fields of a draw lie in its joined payloads, and how many of each thing there is room for.

use crate::{first_coordinate, DRAW_BYTES};

/// The draws that a scene holds.
pub const MOST_DRAWS: usize = 64;

/// The flag word, two bytes, as the three behind it.
pub const FLAGS: usize = 0;
/// The blend mode.
pub const BLEND: usize = 2;
/// The paint type.
pub const PAINT: usize = 4;
/// What a gradient does beyond its ends.
pub const SPREAD: usize = 6;
/// The number of segments, a byte, as the two behind it.
pub const SEGMENT_COUNT: usize = 8;
/// The number of scissors.
pub const SCISSOR_COUNT: usize = 9;
/// The number of stops.
pub const STOP_COUNT: usize = 10;
/// A byte that is zero.
pub const BEHIND_COUNTS: usize = 11;
/// Six floats: sx, shy, shx, sy, tx, ty.
pub const MATRIX: usize = 12;
/// Four floats: red, green, blue, alpha.
pub const COLOR: usize = 36;
/// The linear gradient, four floats: x0, y0, x1, y1.
pub const LINEAR: usize = 52;
/// The scissors.
pub const SCISSORS: usize = 68;
/// The bytes of a scissor, four whole numbers: x, y, width, height.
pub const SCISSOR_BYTES: usize = 16;
/// The scissors that a draw has room for.
pub const MOST_SCISSORS: usize = 4;
/// The stops. In a radial draw the gradient's five values have the first one's place.
pub const STOPS: usize = 132;
/// The radial gradient, five floats: cx, cy, fx, fy, r.
pub const RADIAL: usize = STOPS;
/// The bytes of a stop, five floats: its offset, red, green, blue, alpha.
pub const STOP_BYTES: usize = 20;
/// The stops that a draw has room for, one fewer in a radial one.
pub const MOST_STOPS: usize = 32;
/// The segments, a byte each; the coordinates lie behind them, or behind the transformation.
pub const SEGMENTS: usize = 772;
/// The segments that a draw has room for.
pub const MOST_SEGMENTS: usize = 128;
/// Four scales, which only edition 1 has.
pub const SCALES: usize = 900;
/// Four biases, behind the scales.
pub const BIASES: usize = 916;

/// The coordinates that a draw of an edition has room for.
pub fn most_coordinates(edition: u16) -> usize {
    (DRAW_BYTES - first_coordinate(edition)) / 2
}
