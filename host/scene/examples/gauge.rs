//! A round gauge: a rim, marks, numbers and a needle.
//!
//!     cargo run --offline -p wayramesh-scene --example gauge 42 gauge.scene
//!     cargo run --offline --bin reference-draw gauge.scene | cargo run --offline --bin picture-to-png gauge.png

use std::error::Error;
use std::{env, fs};

use wayramesh_scene::canvas::{Canvas, Color, Paint, Stops};
use wayramesh_scene::shape::{on_circle, Point, Shape};
use wayramesh_scene::Scene;

const SIDE: f64 = 200.0;
const CENTER: Point = (100.0, 100.0);
const RIM: Stops = &[(0.9, 0x101214FF), (0.95, 0xD5DBE2FF), (1.0, 0x23272CFF)];
const PRINT: Color = 0xF2F5F8FF;
const NEEDLE: Color = 0xFF5C4EFF;

/// The gauge at a value from 0 to 100.
pub fn gauge(value: f64) -> Result<Scene, wayramesh_scene::Error> {
    let mut canvas = Canvas::new((SIDE, SIDE), 1.0, 0x07080AFF);
    canvas.fill(Shape::new().circle(CENTER, 96.0), Paint::dome(CENTER, 96.0, 0.3, RIM));
    let marks = (0..=10).fold(Shape::new(), |marks, i| marks.tick(CENTER, 72.0, 84.0, 2.5, angle(10.0 * f64::from(i))));
    canvas.fill(marks, Paint::Color(PRINT));
    for number in [0, 50, 100] {
        let middle = on_circle(CENTER, 56.0, angle(f64::from(number)));
        canvas.write(&number.to_string(), middle, 14.0, PRINT);
    }
    let needle = Shape::new().polygon(&[(-14.0, -4.0), (70.0, 0.0), (-14.0, 4.0)]);
    canvas.fill_turned(needle, Paint::Color(NEEDLE), angle(value), CENTER);
    canvas.scene()
}

/// Degrees, counter-clockwise from the right.
fn angle(value: f64) -> f64 {
    225.0 - 2.7 * value
}

fn main() -> Result<(), Box<dyn Error>> {
    let arguments: Vec<String> = env::args().skip(1).collect();
    match &arguments[..] {
        [value, target] => {
            let file = gauge(value.parse()?)?.build()?;
            Ok(fs::write(target, file)?)
        }
        _ => Err("usage: gauge VALUE SCENE".into()),
    }
}
