//! Lamps: a row of small ones above the dials, and two great ones in the display. One that is off is faintly seen.

use crate::canvas::{Canvas, Color, Paint, Stops};
use crate::display::{self, MIDDLE};
use crate::part::Part;
use crate::shape::{Point, Shape};
use crate::signs::{self, Brake};
use crate::{bezel, Readings};

/// How far the light of lamps reaches.
#[derive(Clone, Copy, Debug, PartialEq, Eq)]
pub enum Light {
    /// Hardly beyond the lamps, wherever that is.
    Near,
    /// All about them, under the mask: it fades at the bezels.
    Wide,
}

const GREEN: Color = 0x37E37AFF;
const BLUE: Color = 0x4C95FFFF;
const AMBER: Color = 0xFFB21FFF;
const RED: Color = 0xFF5C4EFF;
const OFF: Color = 0x9AA5B23C;

/// The row of small lamps, the step from one to the next, and how far from the middle the turn signals are.
pub const ROW: f64 = 537.0;
const STEP: f64 = 60.0;
const TURN_SHIFT: f64 = 201.0;

const STOP_BRAKE: Brake = Brake { ring: 15.0, brackets: 22.0, line: 3.0 };
const STOP_BRAKE_LETTER: f64 = 15.0;

pub fn small_lamps(canvas: &mut Canvas, readings: &Readings, light: Light) {
    Part::Lamp.begin(canvas);
    turn_signal(canvas, -1.0, readings.left_turn, light);
    turn_signal(canvas, 1.0, readings.right_turn, light);
    let place = |number: f64| (MIDDLE + number * STEP, ROW);
    let stop_brake = STOP_BRAKE.at(place(0.0)).text("H", place(0.0), STOP_BRAKE_LETTER);
    let lamps = [
        (signs::HIGH_BEAM.at(place(-2.0)), BLUE, readings.high_beam),
        (signs::LOW_BEAM.at(place(-1.0)), GREEN, readings.low_beam),
        (stop_brake, AMBER, readings.stop_brake),
        (signs::BATTERY.at(place(1.0)), RED, readings.battery),
        (signs::ENGINE.at(place(2.0)), AMBER, readings.engine),
    ];
    for (sign, color, on) in lamps {
        canvas.fill(sign, Paint::Color(if on { color } else { OFF }));
    }
}

/// An arrow to the left (-1) or right (1), with its light on the board.
fn turn_signal(canvas: &mut Canvas, side: f64, on: bool, light: Light) {
    let center = (MIDDLE + side * TURN_SHIFT, ROW);
    TURN_HALO.fill(canvas, center, on, light);
    canvas.fill(signs::arrow(center, side), Paint::Color(if on { GREEN } else { OFF }));
}

/// A lamp's light: how far it reaches and how it fades, near and wide, and what wide light fills.
struct Halo {
    near: (f64, Stops<'static>),
    wide: (f64, Stops<'static>),
    filled: fn() -> Shape,
}

const TURN_HALO: Halo = Halo {
    near: (40.0, &[(0.0, 0x37E37A70), (0.5, 0x37E37A24), (1.0, 0x37E37A00)]),
    wide: (150.0, &[(0.0, 0x37E37A90), (0.2, 0x37E37A58), (0.5, 0x37E37A1C), (1.0, 0x37E37A00)]),
    filled: bezel::inside_strip,
};
const GREAT_HALO: Halo = Halo {
    near: (62.0, &[(0.45, 0xFF2A1C6A), (0.75, 0xFF2A1C22), (1.0, 0xFF2A1C00)]),
    wide: (190.0, &[(0.2, 0xFF2A1C94), (0.4, 0xFF2A1C58), (0.7, 0xFF2A1C1C), (1.0, 0xFF2A1C00)]),
    filled: display::glass,
};
const DARK: Stops = &[(0.0, 0x00000000)];

impl Halo {
    fn fill(&self, canvas: &mut Canvas, center: Point, on: bool, light: Light) {
        let ((radius, lit), shape) = match light {
            Light::Near => (self.near, Shape::new().circle(center, self.near.0)),
            Light::Wide => (self.wide, (self.filled)()),
        };
        canvas.set_masked(light == Light::Wide);
        canvas.fill(shape, Paint::glow(center, radius, if on { lit } else { DARK }));
        canvas.set_masked(false);
    }
}

/// The places of the great lamps.
const GREAT_ROW: f64 = 411.0;
const GREAT_SHIFT: f64 = 55.0;

pub fn great_lamps(canvas: &mut Canvas, readings: &Readings, light: Light) {
    Part::Lamp.begin(canvas);
    stop_sign(canvas, (MIDDLE - GREAT_SHIFT, GREAT_ROW), readings.stop_requested, light);
    parking_brake(canvas, (MIDDLE + GREAT_SHIFT, GREAT_ROW), readings.parking_brake, light);
}

/// The sign of a requested stop: the radius of its corners, that of the line within its edge, and the letters.
const SIGN_RADIUS: f64 = 44.0;
const SIGN_LINE_RADIUS: f64 = 40.0;
const SIGN_LINE: f64 = 3.2;
const SIGN_LETTERS: f64 = 20.0;
const SIGN_LEAN: f64 = 0.45;
const SIGN_ON: Stops = &[(0.0, 0xFF6A58FF), (0.5, 0xF02A1DFF), (1.0, 0xB3120BFF)];
const SIGN_OFF: Stops = &[(0.0, 0x3A1C1CFF), (1.0, 0x1C0F12FF)];
const SIGN_INK_ON: Color = 0xFFFFFFFF;
const SIGN_INK_OFF: Color = 0x8A6A6AFF;

/// An octagon with a word, lit when a passenger has asked for the next stop.
fn stop_sign(canvas: &mut Canvas, center: Point, on: bool, light: Light) {
    GREAT_HALO.fill(canvas, center, on, light);
    let plate = Shape::new().polygon(&signs::octagon(center, SIGN_RADIUS));
    canvas.fill(plate, Paint::dome(center, SIGN_RADIUS, SIGN_LEAN, if on { SIGN_ON } else { SIGN_OFF }));
    let line = Shape::new().border(&signs::octagon(center, SIGN_LINE_RADIUS), SIGN_LINE);
    let ink = line.text("STOP", center, SIGN_LETTERS);
    canvas.fill(ink, Paint::Color(if on { SIGN_INK_ON } else { SIGN_INK_OFF }));
}

const PARKING_BRAKE: Brake = Brake { ring: 27.0, brackets: 38.0, line: 4.6 };
const PARKING_BRAKE_LETTER: f64 = 29.0;
const PARKING_BRAKE_OFF: Color = 0x9AA5B244;

fn parking_brake(canvas: &mut Canvas, center: Point, on: bool, light: Light) {
    GREAT_HALO.fill(canvas, center, on, light);
    let sign = PARKING_BRAKE.at(center).text("P", center, PARKING_BRAKE_LETTER);
    canvas.fill(sign, Paint::Color(if on { RED } else { PARKING_BRAKE_OFF }));
}
