//! The three doors, seen from outside. Each state has leaves of its own shape, and a word of its own.

use crate::canvas::{Canvas, Color, Paint, Stops};
use crate::display::MIDDLE;
use crate::part::Part;
use crate::shape::{Point, Shape};

/// The state of a door.
#[derive(Clone, Copy, Debug, PartialEq, Eq)]
pub enum Door {
    Closed,
    Moving,
    Open,
}

impl Door {
    pub const ALL: [Door; 3] = [Door::Closed, Door::Moving, Door::Open];

    fn word(self) -> &'static str {
        match self {
            Door::Closed => "CLOSED",
            Door::Moving => "MOVING",
            Door::Open => "OPEN",
        }
    }

    fn color(self) -> Color {
        match self {
            Door::Closed => 0x86E3A6FF,
            Door::Moving => 0xFFC233FF,
            Door::Open => 0xFF7A6EFF,
        }
    }

    /// The leaves' colours from the top down.
    fn leaf_stops(self) -> Stops<'static> {
        match self {
            Door::Closed => &[(0.0, 0x7F8E9CFF), (1.0, 0x46525DFF)],
            Door::Moving => &[(0.0, 0xFF9A1FFF), (1.0, 0xC65A00FF)],
            Door::Open => &[(0.0, 0xF2564AFF), (1.0, 0xB51D14FF)],
        }
    }
}

/// The columns of the doors' middles, the rows of the doorways, and half their width.
const PITCH: f64 = 59.0;
const COLUMNS: [f64; 3] = [MIDDLE - PITCH, MIDDLE, MIDDLE + PITCH];
const SILL: f64 = 238.0;
const HEIGHT: f64 = 84.0;
const HALF: f64 = 22.0;
const FRAME: f64 = 2.5;
const FRAME_COLOR: Color = 0x53606CFF;
const INSIDE_STOPS: Stops = &[(0.0, 0xFFF8E2FF), (0.86, 0xF3E2B4FF), (0.86, 0xB79F6AFF), (1.0, 0x9A8452FF)];

const NAMES: [&str; 3] = ["1", "2", "3"];
const NAME_ROW: f64 = 341.0;
const NAME_HEIGHT: f64 = 18.0;
const NAME_COLOR: Color = 0xE6EDF4FF;
const WORD_ROW: f64 = 221.0;
const WORD_HEIGHT: f64 = 10.5;

pub fn doors(canvas: &mut Canvas, doors: [Door; 3]) {
    Part::Door.begin(canvas);
    let doorways = |shape: Shape, by: f64| {
        COLUMNS
            .iter()
            .fold(shape, |shape, x| shape.rectangle(x - HALF - by, SILL - by, 2.0 * (HALF + by), HEIGHT + 2.0 * by))
    };
    canvas.fill(doorways(doorways(Shape::new(), FRAME), 0.0), Paint::Color(FRAME_COLOR));
    canvas.fill(doorways(Shape::new(), 0.0), Paint::rows(SILL + HEIGHT, SILL, INSIDE_STOPS));
    let names = COLUMNS.iter().zip(NAMES);
    let names = names.fold(Shape::new(), |shape, (&x, name)| shape.text(name, (x, NAME_ROW), NAME_HEIGHT));
    Part::Print.begin(canvas);
    canvas.fill(names, Paint::Color(NAME_COLOR));
    for (x, door) in COLUMNS.into_iter().zip(doors) {
        Part::Door.begin(canvas);
        canvas.fill(leaves(x, door), Paint::rows(SILL + HEIGHT, SILL, door.leaf_stops()));
        Part::Lamp.begin(canvas);
        canvas.write(door.word(), (x, WORD_ROW), WORD_HEIGHT, door.color());
    }
}

/// The right leaf with its window; the left one is its mirror image.
fn leaves(x: f64, door: Door) -> Shape {
    match door {
        Door::Closed => both(both(Shape::new(), x, &CLOSED_LEAF), x, &CLOSED_WINDOW),
        Door::Moving => both(both(both(Shape::new(), x, &MOVING_LEAF), x, &MOVING_WINDOW), x, &ARROW),
        Door::Open => both(Shape::new(), x, &OPEN_LEAF),
    }
}

/// Shapes of the right half: columns from the door's middle, rows from the sill.
const CLOSED_LEAF: [Point; 4] = [(0.9, 0.0), (HALF, 0.0), (HALF, HEIGHT), (0.9, HEIGHT)];
const CLOSED_WINDOW: [Point; 4] = [(5.0, 26.0), (17.5, 26.0), (17.5, 76.0), (5.0, 76.0)];
const MOVING_LEAF: [Point; 4] = [(12.0, -3.0), (HALF, 0.0), (HALF, HEIGHT), (12.0, HEIGHT + 3.0)];
const MOVING_WINDOW: [Point; 4] = [(14.5, 24.0), (19.5, 25.0), (19.5, 77.0), (14.5, 78.0)];
const ARROW: [Point; 7] = [(0.0, 39.0), (3.0, 39.0), (3.0, 32.0), (11.0, 42.0), (3.0, 52.0), (3.0, 45.0), (0.0, 45.0)];
const OPEN_LEAF: [Point; 4] = [(HALF - 2.0, 0.0), (HALF + 6.0, -7.0), (HALF + 6.0, HEIGHT + 7.0), (HALF - 2.0, HEIGHT)];

/// Appends a shape of the right half and its mirror image.
fn both(shape: Shape, x: f64, points: &[Point]) -> Shape {
    let placed = |side: f64| points.iter().map(|&(px, py)| (x + side * px, SILL + py)).collect::<Vec<_>>();
    shape.polygon(&placed(1.0)).polygon(&placed(-1.0))
}
