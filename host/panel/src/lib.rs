//! A bus driver's instrument panel: a dial for the speed and one for the brake pressure, between them a display with
//! the doors, lamps above and two small gauges below.
//!
//! The panel is laid out in pixels of 1,024 by 600, row 0 the lowest, and can be drawn at any smaller scale.
#![forbid(unsafe_code)]

mod bezel;
mod brake;
mod dial;
mod display;
mod doors;
mod gauges;
mod lamps;
mod part;
mod signs;
mod speed;

pub use bezel::mask;
pub use doors::Door;
pub use lamps::Light;

use canvas::{Canvas, Color, Paint, Stops};
use part::Part;
use scene::{canvas, font, shape, stroke, Scene};
use shape::Shape;

pub const WIDTH: f64 = 1_024.0;
pub const HEIGHT: f64 = 600.0;

/// What the instruments show.
#[derive(Clone, Debug)]
pub struct Readings {
    /// Kilometres an hour, 0 to 125.
    pub speed: f64,
    /// Bar, 0 to 12, in the brake's two circuits.
    pub brake_pressure: [f64; 2],
    /// From the front to the rear.
    pub doors: [Door; 3],
    pub stop_requested: bool,
    pub parking_brake: bool,
    pub stop_brake: bool,
    pub left_turn: bool,
    pub right_turn: bool,
    pub low_beam: bool,
    pub high_beam: bool,
    pub battery: bool,
    pub engine: bool,
    /// 0 to 1.
    pub fuel: f64,
    /// 0 to 1.
    pub coolant: f64,
    pub trip: Trip,
    /// Whether it is dark, so that the panel dims.
    pub night: bool,
}

/// What the display says in words.
#[derive(Clone, Debug)]
pub struct Trip {
    pub line: &'static str,
    pub next_stop: &'static str,
    pub time: &'static str,
    pub outside: &'static str,
}

/// A bus that rolls into its stop, slowly enough for its doors to be free.
impl Default for Readings {
    fn default() -> Readings {
        Readings {
            speed: 4.0,
            brake_pressure: [9.4, 10.1],
            doors: [Door::Open, Door::Closed, Door::Moving],
            stop_requested: true,
            parking_brake: false,
            stop_brake: false,
            left_turn: false,
            right_turn: true,
            low_beam: true,
            high_beam: false,
            battery: false,
            engine: false,
            fuel: 0.7,
            coolant: 0.5,
            trip: Trip { line: "42", next_stop: "CITY HALL", time: "14:30", outside: "21°C" },
            night: false,
        }
    }
}

impl Readings {
    /// The next frame: slower, and the second door begins to move.
    pub fn next(&self) -> Readings {
        let [front, _, rear] = self.doors;
        Readings { speed: self.speed / 2.0, doors: [front, Door::Moving, rear], ..self.clone() }
    }

    /// The same at night.
    pub fn at_night(&self) -> Readings {
        let trip = Trip { time: "22:45", outside: "9°C", ..self.trip.clone() };
        Readings { night: true, trip, ..self.clone() }
    }
}

/// The panel at a scale of at most 1, which is 1,024 by 600 pixels. Wide light asks for the mask. At night the scene has
/// the edition with transformations.
pub fn panel(readings: &Readings, scale: f64, light: Light) -> Scene {
    let mut canvas = Canvas::new((WIDTH, HEIGHT), scale, BACKGROUND);
    canvas.set_edition(if readings.night { part::NIGHT } else { part::DAY });
    board(&mut canvas);
    if light == Light::Wide {
        bezel::strip(&mut canvas);
    }
    dial::housing(&mut canvas, speed::CENTER);
    dial::housing(&mut canvas, brake::CENTER);
    dial::windows(&mut canvas, [&speed::WINDOW].into_iter().chain(&brake::WINDOWS));
    dial::units(&mut canvas, [speed::unit(), brake::unit(), brake::sign()]);
    speed::dial(&mut canvas, readings.speed);
    brake::dial(&mut canvas, readings.brake_pressure);
    display::display(&mut canvas);
    lamps::great_lamps(&mut canvas, readings, light);
    doors::doors(&mut canvas, readings.doors);
    display::trip(&mut canvas, &readings.trip);
    lamps::small_lamps(&mut canvas, readings, light);
    gauges::gauges(&mut canvas, readings.fuel, readings.coolant);
    canvas.scene().expect("the panel keeps the rules")
}

/// The scene files of the folder scenes: the panel and its next frame, in full size and a quarter of it; a pair with wide
/// light, under the mask, of which the second has its turn signal dark; and the panel at night.
pub fn files() -> Vec<(&'static str, Scene)> {
    let now = Readings::default();
    let next = now.next();
    let dark = Readings { right_turn: false, ..now.clone() };
    vec![
        ("panel.scene", panel(&now, 1.0, Light::Near)),
        ("panel-next.scene", panel(&next, 1.0, Light::Near)),
        ("panel-small.scene", panel(&now, 0.25, Light::Near)),
        ("panel-small-next.scene", panel(&next, 0.25, Light::Near)),
        ("panel-soft.scene", panel(&now, 1.0, Light::Wide)),
        ("panel-soft-next.scene", panel(&dark, 1.0, Light::Wide)),
        ("panel-night.scene", panel(&now.at_night(), 1.0, Light::Near)),
    ]
}

/// The mask file of the folder scenes, for the pair with wide light.
pub fn mask_file() -> (&'static str, Vec<u8>) {
    ("panel-soft.mask", mask(1.0))
}

const BACKGROUND: Color = 0x07080AFF;
const BOARD_CORNER: f64 = 60.0;
const BOARD_MARGIN: f64 = 8.0;
const BOARD_STOPS: Stops = &[(0.0, 0x343A43FF), (0.5, 0x1B1F25FF), (1.0, 0x0D0F13FF)];

/// The board that holds the instruments.
fn board(canvas: &mut Canvas) {
    Part::Housing.begin(canvas);
    let (width, height) = (WIDTH - 2.0 * BOARD_MARGIN, HEIGHT - 2.0 * BOARD_MARGIN);
    let board = Shape::new().rounded_rectangle(BOARD_MARGIN, BOARD_MARGIN, width, height, BOARD_CORNER);
    canvas.fill(board, Paint::rows(HEIGHT, 0.0, BOARD_STOPS));
}
