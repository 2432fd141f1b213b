//! Two small gauges below the display: fuel, and the temperature of the coolant.

use crate::canvas::{Canvas, Color, Paint, Stops};
use crate::display::MIDDLE;
use crate::part::Part;
use crate::shape::Shape;
use crate::signs;

/// A row of blocks, of which the first ones are lit.
const ROW: f64 = 50.0;
const BLOCKS: i32 = 10;
const BLOCK_WIDTH: f64 = 11.0;
const BLOCK_HEIGHT: f64 = 16.0;
const BLOCK_STEP: f64 = 14.0;
const LENGTH: f64 = BLOCK_STEP * BLOCKS as f64 - (BLOCK_STEP - BLOCK_WIDTH);
const UNLIT: Color = 0x9AA5B22B;

/// Where the gauges begin, to either side of the panel's middle, and how far from their ends their signs are.
const GAP: f64 = 20.0;
const FUEL_LEFT: f64 = MIDDLE - GAP - LENGTH;
const COOLANT_LEFT: f64 = MIDDLE + GAP;
const SIGN_GAP: f64 = 22.0;
const SIGN_COLOR: Color = 0xC3CCD6FF;
const FUEL_STOPS: Stops = &[(0.0, 0xFF5A3CFF), (0.22, 0xF2B431FF), (0.4, 0x59D98BFF), (1.0, 0x3FE0A0FF)];
const COOLANT_STOPS: Stops = &[(0.0, 0x4FA3FFFF), (0.4, 0x4FDBC4FF), (0.75, 0xF2B431FF), (1.0, 0xFF4A34FF)];

/// Both gauges; full is 1.
pub fn gauges(canvas: &mut Canvas, fuel: f64, coolant: f64) {
    Part::Lamp.begin(canvas);
    let lit = |share: f64| (share * f64::from(BLOCKS)).round() as i32;
    let unlit = blocks(blocks(Shape::new(), FUEL_LEFT, lit(fuel)..BLOCKS), COOLANT_LEFT, lit(coolant)..BLOCKS);
    canvas.fill(unlit, Paint::Color(UNLIT));
    for (left, share, stops) in [(FUEL_LEFT, fuel, FUEL_STOPS), (COOLANT_LEFT, coolant, COOLANT_STOPS)] {
        let paint = Paint::columns(left, left + LENGTH, stops);
        canvas.fill(blocks(Shape::new(), left, 0..lit(share)), paint);
    }
    Part::Print.begin(canvas);
    let fuel = signs::FUEL.at((FUEL_LEFT - SIGN_GAP, ROW));
    let coolant = signs::coolant((COOLANT_LEFT + LENGTH + SIGN_GAP, ROW));
    canvas.fill_all([fuel, coolant], Paint::Color(SIGN_COLOR));
}

fn blocks(shape: Shape, left: f64, numbers: std::ops::Range<i32>) -> Shape {
    numbers.fold(shape, |shape, i| {
        let x = left + BLOCK_STEP * f64::from(i);
        shape.rectangle(x, ROW - BLOCK_HEIGHT / 2.0, BLOCK_WIDTH, BLOCK_HEIGHT)
    })
}
