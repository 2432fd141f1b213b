//! The second dial: the air pressure in the brake's two circuits. Each has a half of the dial, with its own scale and
//! needle, so that equal pressures stand at equal heights. Circuit 1 has a solid needle, circuit 2 a hollow one.

use crate::canvas::{Canvas, Color, Paint};
use crate::dial::{self, Marks, Needle, Numbers, Scale, Window};
use crate::part::Part;
use crate::shape::{Point, Shape};
use crate::signs::Brake;

pub const CENTER: Point = (810.0, 285.0);
/// Bar.
const GREATEST: f64 = 12.0;
const WARNING_BELOW: f64 = 5.0;
const RADIUS: f64 = 158.0;
const SCALES: [Scale; 2] = [
    Scale { center: CENTER, greatest: GREATEST, first_angle: 225.0, last_angle: 112.0, radius: RADIUS },
    Scale { center: CENTER, greatest: GREATEST, first_angle: -45.0, last_angle: 68.0, radius: RADIUS },
];
const MARKS: Marks = Marks { step: 1.0, middle: 2, long: 4 };
const NUMBERS: Numbers = Numbers { step: 4.0, height: 27.0, radius: 131.0 };

/// The hatched band of too low a pressure: bars between two circles, each leaning by some degrees, two ends, an edge.
const BAND_INNER: f64 = 161.0;
const BAND_OUTER: f64 = 171.0;
const BAND_EDGE: f64 = 175.0;
const BAND_BARS: i32 = 9;
const BAR_WIDTH: f64 = 7.0;
const BAR_LEAN: f64 = 2.2;
const BAND_END: f64 = 4.0;
const BAND_COLOR: Color = 0xFF4034FF;

/// The figures' windows, and below them the circuits' numbers, each beside a sign like its needle.
const WINDOW_SHIFT: f64 = 34.0;
pub const WINDOWS: [Window; 2] = [
    Window { middle: (CENTER.0 - WINDOW_SHIFT, dial::WINDOW_ROW), width: 64.0 },
    Window { middle: (CENTER.0 + WINDOW_SHIFT, dial::WINDOW_ROW), width: 64.0 },
];
const FIGURES_HEIGHT: f64 = 22.0;
const FIGURES_COLOR: Color = 0xFFFFFFFF;
const NAMES: [&str; 2] = ["1", "2"];
const NAME_DROP: f64 = 47.0;
const NAME_HEIGHT: f64 = 20.0;
const NAME_SHIFT: f64 = 9.0;
/// An upright needle's tip, clockwise.
const SIGN: [Point; 3] = [(-6.0, -9.0), (0.0, 10.0), (6.0, -9.0)];
const SIGN_LINE: f64 = 2.4;

const NEEDLE_HALF: f64 = 8.0;
const SOLID: [Point; 4] = [(0.0, -6.5), (146.0, -1.2), (146.0, 1.2), (0.0, 6.5)];
const HOLLOW: [Point; 5] =
    [(0.0, -NEEDLE_HALF), (100.0, -NEEDLE_HALF), (146.0, 0.0), (100.0, NEEDLE_HALF), (0.0, NEEDLE_HALF)];
const HOLLOW_INSIDE: [Point; 5] = [(34.0, -4.6), (97.0, -4.6), (128.0, 0.0), (97.0, 4.6), (34.0, 4.6)];

/// The dial, with a pressure in bar for each circuit.
pub fn dial(canvas: &mut Canvas, pressures: [f64; 2]) {
    Part::Print.begin(canvas);
    let hatched = SCALES.iter().fold(Shape::new(), band);
    canvas.fill(hatched, Paint::Color(BAND_COLOR));
    let marks = SCALES.iter().fold(Shape::new(), |shape, scale| scale.marks(shape, &MARKS));
    let numbers = SCALES.iter().flat_map(|scale| scale.numbers(&NUMBERS));
    dial::print(canvas, [marks].into_iter().chain(numbers).chain([names()]));
    figures(canvas, pressures);
    needles(canvas, pressures);
    dial::hub(canvas, CENTER);
    dial::glass(canvas, CENTER);
}

/// Both needles, over the shadows of both.
fn needles(canvas: &mut Canvas, pressures: [f64; 2]) {
    let shapes = [Shape::new().polygon(&SOLID), Shape::new().polygon(&HOLLOW).polygon(&HOLLOW_INSIDE)];
    let needles = shapes.map(|shape| Needle { shape, half: NEEDLE_HALF });
    let angles = [0, 1].map(|i| SCALES[i].angle(pressures[i]));
    for (needle, angle) in needles.iter().zip(angles) {
        needle.shadow(canvas, CENTER, angle);
    }
    for (needle, angle) in needles.iter().zip(angles) {
        needle.draw(canvas, CENTER, angle);
    }
}

/// Appends a scale's warning range.
fn band(shape: Shape, scale: &Scale) -> Shape {
    let (from, to) = (scale.angle(0.0), scale.angle(WARNING_BELOW));
    let lean = BAR_LEAN * (to - from).signum();
    let ends =
        [from, to].iter().fold(shape, |shape, &angle| shape.tick(CENTER, BAND_INNER, BAND_OUTER, BAND_END, angle));
    let bars = (1..=BAND_BARS).fold(ends, |shape, i| {
        let angle = from + (to - from) * f64::from(i) / f64::from(BAND_BARS + 1);
        shape.slanted_tick(CENTER, (BAND_INNER, angle - lean), (BAND_OUTER, angle + lean), BAR_WIDTH)
    });
    bars.band(CENTER, BAND_EDGE, BAND_OUTER, from, to)
}

/// The pressures in figures.
fn figures(canvas: &mut Canvas, pressures: [f64; 2]) {
    let of_both = WINDOWS.iter().zip(pressures).fold(Shape::new(), |shape, (window, pressure)| {
        shape.text(&format!("{pressure:.1}"), window.middle, FIGURES_HEIGHT)
    });
    canvas.fill(of_both, Paint::Color(FIGURES_COLOR));
}

/// The circuits' numbers, and beside each a sign like its needle.
fn names() -> Shape {
    let [(x1, y1), (x2, y2)] = WINDOWS.map(|window| (window.middle.0, window.middle.1 - NAME_DROP));
    let sign = |x: f64, y: f64| SIGN.map(|(px, py)| (x + px, y + py));
    Shape::new()
        .text(NAMES[0], (x1 + NAME_SHIFT, y1), NAME_HEIGHT)
        .text(NAMES[1], (x2 - NAME_SHIFT, y2), NAME_HEIGHT)
        .polygon(&sign(x1 - NAME_SHIFT, y1))
        .border(&sign(x2 + NAME_SHIFT, y2), SIGN_LINE)
}

pub fn unit() -> Shape {
    Shape::new().text("bar", (CENTER.0, CENTER.1 + dial::UNIT_RISE), dial::UNIT_HEIGHT)
}

/// The sign of a brake, between the ends of the scales.
const BRAKE_RISE: f64 = 112.0;
const BRAKE: Brake = Brake { ring: 12.0, brackets: 18.5, line: 2.8 };

pub fn sign() -> Shape {
    BRAKE.at((CENTER.0, CENTER.1 + BRAKE_RISE))
}
