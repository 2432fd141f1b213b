//! The main dial: speed by needle and in figures.

use crate::canvas::{Canvas, Color, Paint};
use crate::dial::{self, Marks, Needle, Numbers, Scale, Window};
use crate::part::Part;
use crate::shape::{Point, Shape};

pub const CENTER: Point = (214.0, 285.0);
const SCALE: Scale = Scale { center: CENTER, greatest: 125.0, first_angle: 225.0, last_angle: -45.0, radius: 172.0 };
const MARKS: Marks = Marks { step: 5.0, middle: 2, long: 4 };
const NUMBERS: Numbers = Numbers { step: 20.0, height: 29.0, radius: 143.0 };

/// The figures' window.
pub const WINDOW: Window = Window { middle: (CENTER.0, dial::WINDOW_ROW), width: 112.0 };
const FIGURES_HEIGHT: f64 = 40.0;
const FIGURES_COLOR: Color = 0xFFFFFFFF;

const NEEDLE_HALF: f64 = 7.0;
const NEEDLE: [Point; 6] =
    [(-46.0, -5.5), (0.0, -NEEDLE_HALF), (158.0, -1.4), (158.0, 1.4), (0.0, NEEDLE_HALF), (-46.0, 5.5)];

pub fn dial(canvas: &mut Canvas, speed: f64) {
    Part::Print.begin(canvas);
    dial::print(canvas, [SCALE.marks(Shape::new(), &MARKS)].into_iter().chain(SCALE.numbers(&NUMBERS)));
    let figures = format!("{speed:.0}");
    canvas.fill(Shape::new().text(&figures, WINDOW.middle, FIGURES_HEIGHT), Paint::Color(FIGURES_COLOR));
    let needle = Needle { shape: Shape::new().polygon(&NEEDLE), half: NEEDLE_HALF };
    needle.shadow(canvas, CENTER, SCALE.angle(speed));
    needle.draw(canvas, CENTER, SCALE.angle(speed));
    dial::hub(canvas, CENTER);
    dial::glass(canvas, CENTER);
}

pub fn unit() -> Shape {
    Shape::new().text("km/h", (CENTER.0, CENTER.1 + dial::UNIT_RISE), dial::UNIT_HEIGHT)
}
