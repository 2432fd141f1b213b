//! The bezels of the lamps, and the mask with which their light fades there: the display's frame, and a sunken strip on the
//! board for the row of small lamps.

use crate::canvas::{Canvas, Paint, Stops};
use crate::display::{self, MIDDLE};
use crate::part::Part;
use crate::shape::{Point, Shape};
use crate::{lamps, HEIGHT, WIDTH};

/// How light fades before a bezel, in panel pixels: over the display's wide glass, and in the narrow strip.
const DISPLAY_FADE: f64 = 30.0;
const STRIP_FADE: f64 = 15.0;

/// The strip about the row of small lamps.
const STRIP_HALF_LENGTH: f64 = 292.0;
const STRIP_HALF_HEIGHT: f64 = 37.0;
const STRIP_CORNER: f64 = 20.0;
const STRIP_STOPS: Stops = &[(0.0, 0x0A0C0FFF), (0.15, 0x12161BFF), (0.9, 0x191E25FF), (1.0, 0x3A434EFF)];

/// The strip, sunken into the board.
pub fn strip(canvas: &mut Canvas) {
    Part::Housing.begin(canvas);
    let (top, bottom) = (lamps::ROW + STRIP_HALF_HEIGHT, lamps::ROW - STRIP_HALF_HEIGHT);
    canvas.fill(inside_strip(), Paint::rows(top, bottom, STRIP_STOPS));
}

pub fn inside_strip() -> Shape {
    let (left, bottom) = (MIDDLE - STRIP_HALF_LENGTH, lamps::ROW - STRIP_HALF_HEIGHT);
    let (length, height) = (2.0 * STRIP_HALF_LENGTH, 2.0 * STRIP_HALF_HEIGHT);
    Shape::new().rounded_rectangle(left, bottom, length, height, STRIP_CORNER)
}

/// A byte for each pixel of the panel at a scale, the lowest row first: 0 on a bezel and outside, 255 well within.
pub fn mask(scale: f64) -> Vec<u8> {
    let (width, height) = ((WIDTH * scale).round() as i32, (HEIGHT * scale).round() as i32);
    let middle = |pixel: i32| (f64::from(pixel) + 0.5) / scale;
    (0..height).flat_map(|y| (0..width).map(move |x| byte((middle(x), middle(y))))).collect()
}

fn byte(point: Point) -> u8 {
    let display = fading(display::depth(point), DISPLAY_FADE);
    let strip = fading(strip_depth(point), STRIP_FADE);
    (255.0 * display.max(strip)).round() as u8
}

/// From 0 on a bezel to 1 behind the fade, without a kink at either end.
fn fading(depth: f64, fade: f64) -> f64 {
    let share = (depth / fade).clamp(0.0, 1.0);
    share * share * (3.0 - 2.0 * share)
}

/// How far within the strip a point is.
fn strip_depth((x, y): Point) -> f64 {
    let sides = (STRIP_HALF_LENGTH - (x - MIDDLE).abs(), STRIP_HALF_HEIGHT - (y - lamps::ROW).abs());
    depth(sides, STRIP_CORNER)
}

/// How far a point is within two edges that meet in a rounded corner, from its distances to both.
pub fn depth((one, other): (f64, f64), corner: f64) -> f64 {
    if one < corner && other < corner {
        corner - (corner - one).hypot(corner - other)
    } else {
        one.min(other)
    }
}
