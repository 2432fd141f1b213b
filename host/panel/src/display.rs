//! The display between the dials: its frame follows their rims. At the top the two great lamps, in the waist the
//! doors, at the bottom the line and its next stop.

use crate::canvas::{Canvas, Color, Paint, Stops};
use crate::part::Part;
use crate::shape::{on_circle, Point, Shape};
use crate::{bezel, brake, dial, font, speed, Trip};

/// Between a dial's rim and the frame, and the frame's width.
const CLEARANCE: f64 = 9.0;
const FRAME: f64 = 3.0;
/// From the dials' row to the display's upper and lower edge.
const HALF_HEIGHT: f64 = 176.0;
/// How far from a corner its rounding begins, along either side.
const CORNER: f64 = 26.0;
/// How far a rounding's control points are from its ends, as a share of the way to the corner.
const CORNER_PULL: f64 = 0.62;
const FRAME_STOPS: Stops = &[(0.0, 0x8B95A1FF), (0.5, 0x2C3138FF), (1.0, 0x5C656FFF)];
const GLASS_STOPS: Stops = &[(0.0, 0x0B1620FF), (0.5, 0x0D1B28FF), (1.0, 0x070D14FF)];

/// Thin lines between the display's three parts: their rows, and half their length.
const RULES: [f64; 2] = [361.0, 205.0];
const RULE_HALF: f64 = 88.0;
const RULE_WIDTH: f64 = 1.25;
const RULE_COLOR: Color = 0x5C86A880;

pub const MIDDLE: f64 = (speed::CENTER.0 + brake::CENTER.0) / 2.0;

pub fn display(canvas: &mut Canvas) {
    Part::Housing.begin(canvas);
    let (top, bottom) = (speed::CENTER.1 + HALF_HEIGHT, speed::CENTER.1 - HALF_HEIGHT);
    canvas.fill(waisted(0.0), Paint::rows(top, bottom, FRAME_STOPS));
    canvas.fill(glass(), Paint::rows(top, bottom, GLASS_STOPS));
    let rules = RULES.iter().fold(Shape::new(), |shape, row| {
        shape.rectangle(MIDDLE - RULE_HALF, row - RULE_WIDTH / 2.0, 2.0 * RULE_HALF, RULE_WIDTH)
    });
    canvas.fill(rules, Paint::Color(RULE_COLOR));
}

/// All within the frame.
pub fn glass() -> Shape {
    waisted(FRAME)
}

/// The display's outline, moved inwards: arcs round both dials, joined by straight lines above and below.
fn waisted(inset: f64) -> Shape {
    let radius = dial::RADIUS + CLEARANCE + inset;
    let span = ((HALF_HEIGHT - inset) / radius).asin().to_degrees();
    let left = Side { center: speed::CENTER, facing: 0.0, inwards: 1.0, radius, span };
    let right = Side { center: brake::CENTER, facing: 180.0, inwards: -1.0, radius, span };
    let shape = left.append(Shape::new().move_to(left.edge(-1.0)));
    right.append(shape.line_to(right.edge(-1.0)))
}

/// How far within the display's glass a point is, from the nearer of its frame's sides.
pub fn depth((x, y): Point) -> f64 {
    let dial = if x < MIDDLE { speed::CENTER } else { brake::CENTER };
    let from_side = (x - dial.0).hypot(y - dial.1) - (dial::RADIUS + CLEARANCE + FRAME);
    let within_sides = x > speed::CENTER.0 && x < brake::CENTER.0;
    let from_edge = HALF_HEIGHT - FRAME - (y - dial.1).abs();
    if within_sides {
        bezel::depth((from_side, from_edge), CORNER)
    } else {
        0.0
    }
}

/// A side of the display: an arc round a dial, between two corners that are rounded.
struct Side {
    center: Point,
    /// The angle of the arc's middle in degrees, and the way from there into the display.
    facing: f64,
    inwards: f64,
    radius: f64,
    /// Degrees from the arc's middle to its corners.
    span: f64,
}

impl Side {
    /// The first corner (-1) or the second (1).
    fn corner(&self, which: f64) -> Point {
        on_circle(self.center, self.radius, self.facing + which * self.span)
    }

    /// Where a corner's rounding meets the straight edge.
    fn edge(&self, which: f64) -> Point {
        let (x, y) = self.corner(which);
        (x + self.inwards * CORNER, y)
    }

    /// From the first corner's edge, where the shape ends, to the second's.
    fn append(&self, shape: Shape) -> Shape {
        let arc = self.span - (CORNER / self.radius).to_degrees();
        let (from, to) = (self.facing - arc, self.facing + arc);
        let shape = rounded(shape, self.corner(-1.0), on_circle(self.center, self.radius, from));
        rounded(shape.arc(self.center, self.radius, from, to), self.corner(1.0), self.edge(1.0))
    }
}

/// A rounded corner from where the shape ends.
fn rounded(shape: Shape, corner: Point, to: Point) -> Shape {
    let pull = |end: f64, corner: f64| end + (corner - end) * CORNER_PULL;
    let towards = |end: Point| (pull(end.0, corner.0), pull(end.1, corner.1));
    let from = shape.end();
    shape.cubic_to(towards(from), towards(to), to)
}

/// The line's number on a plate, the next stop beside it, and below the time and the temperature outside.
const PLATE_ROW: f64 = 174.0;
const PLATE_PADDING: f64 = 9.0;
const PLATE_HEIGHT: f64 = 30.0;
const PLATE_CORNER: f64 = 6.0;
const PLATE_STOPS: Stops = &[(0.0, 0xFFD35AFF), (1.0, 0xF2A81CFF)];
const PLATE_INK: Color = 0x15110AFF;
const LINE_HEIGHT: f64 = 20.0;
const STOP_HEIGHT: f64 = 18.0;
const STOP_GAP: f64 = 12.0;
const STOP_COLOR: Color = 0xF4F8FCFF;
const WEATHER_ROW: f64 = 134.0;
const WEATHER_HEIGHT: f64 = 18.0;
const WEATHER_COLOR: Color = 0x9DB4C9FF;

pub fn trip(canvas: &mut Canvas, trip: &Trip) {
    Part::Print.begin(canvas);
    let plate = font::width(trip.line, LINE_HEIGHT) + 2.0 * PLATE_PADDING;
    let width = plate + STOP_GAP + font::width(trip.next_stop, STOP_HEIGHT);
    let (left, bottom) = (MIDDLE - width / 2.0, PLATE_ROW - PLATE_HEIGHT / 2.0);
    canvas.fill(
        Shape::new().rounded_rectangle(left, bottom, plate, PLATE_HEIGHT, PLATE_CORNER),
        Paint::rows(bottom + PLATE_HEIGHT, bottom, PLATE_STOPS),
    );
    let middle = (left + plate / 2.0, PLATE_ROW);
    canvas.write(trip.line, middle, LINE_HEIGHT, PLATE_INK);
    let next_stop = (trip.next_stop, (left + plate + STOP_GAP, PLATE_ROW));
    canvas.write_all(&[next_stop], STOP_HEIGHT, STOP_COLOR);
    let right = MIDDLE + RULE_HALF - font::width(trip.outside, WEATHER_HEIGHT);
    let weather = [(trip.time, (MIDDLE - RULE_HALF, WEATHER_ROW)), (trip.outside, (right, WEATHER_ROW))];
    canvas.write_all(&weather, WEATHER_HEIGHT, WEATHER_COLOR);
}
