//! The signs of lamps and gauges, in pixels from their middles.

use crate::shape::{on_circle, Point, Shape};
use crate::stroke::Line::{self, Closed, Open, Straight};

/// A sign of lines of one width.
pub struct Sign {
    pub lines: &'static [Line],
    pub width: f64,
}

impl Sign {
    pub fn at(&self, center: Point) -> Shape {
        Shape::new().lines(self.lines, center, 1.0, self.width)
    }
}

const LAMP_LINE: f64 = 3.0;
const HEADLAMP: Line = Closed(&[(1.5, -15.0, 3.0), (19.0, -15.0, 15.0), (19.0, 15.0, 15.0), (1.5, 15.0, 3.0)]);

/// A headlamp with rays straight ahead.
pub const HIGH_BEAM: Sign = Sign {
    lines: &[
        HEADLAMP,
        Straight(&[(-5.0, -13.2), (-21.0, -13.2)]),
        Straight(&[(-5.0, -6.6), (-21.0, -6.6)]),
        Straight(&[(-5.0, 0.0), (-21.0, 0.0)]),
        Straight(&[(-5.0, 6.6), (-21.0, 6.6)]),
        Straight(&[(-5.0, 13.2), (-21.0, 13.2)]),
    ],
    width: LAMP_LINE,
};

/// A headlamp with rays that fall.
pub const LOW_BEAM: Sign = Sign {
    lines: &[
        HEADLAMP,
        Straight(&[(-5.0, -13.2), (-21.0, -19.2)]),
        Straight(&[(-5.0, -6.6), (-21.0, -12.6)]),
        Straight(&[(-5.0, 0.0), (-21.0, -6.0)]),
        Straight(&[(-5.0, 6.6), (-21.0, 0.6)]),
        Straight(&[(-5.0, 13.2), (-21.0, 7.2)]),
    ],
    width: LAMP_LINE,
};

/// A box with two poles, minus and plus.
pub const BATTERY: Sign = Sign {
    lines: &[
        Closed(&[(-19.0, -12.0, 2.5), (19.0, -12.0, 2.5), (19.0, 9.5, 2.5), (-19.0, 9.5, 2.5)]),
        Straight(&[(-13.5, 12.5), (-5.5, 12.5)]),
        Straight(&[(5.5, 12.5), (13.5, 12.5)]),
        Straight(&[(-14.0, -1.5), (-5.0, -1.5)]),
        Straight(&[(5.0, -1.5), (14.0, -1.5)]),
        Straight(&[(9.5, -6.0), (9.5, 3.0)]),
    ],
    width: LAMP_LINE,
};

/// An engine's block, its cover, the fan and the shaft.
pub const ENGINE: Sign = Sign {
    lines: &[
        Closed(&[
            (-12.0, -5.0, 1.5),
            (-7.0, -12.0, 1.5),
            (11.0, -12.0, 1.5),
            (11.0, 4.0, 1.5),
            (7.0, 9.0, 1.5),
            (-8.0, 9.0, 1.5),
            (-12.0, 5.0, 1.5),
        ]),
        Straight(&[(-7.0, 14.0), (7.0, 14.0)]),
        Straight(&[(0.0, 9.0), (0.0, 14.0)]),
        Straight(&[(-20.0, -7.0), (-20.0, 7.0)]),
        Straight(&[(-20.0, 0.0), (-12.0, 0.0)]),
        Straight(&[(11.0, -4.0), (19.0, -4.0)]),
        Straight(&[(19.0, -9.0), (19.0, 1.0)]),
    ],
    width: LAMP_LINE,
};

const GAUGE_LINE: f64 = 2.4;

/// A pump with its foot, its window and its hose.
pub const FUEL: Sign = Sign {
    lines: &[
        Closed(&[(-9.0, -10.0, 1.6), (3.0, -10.0, 1.6), (3.0, 11.0, 1.6), (-9.0, 11.0, 1.6)]),
        Straight(&[(-12.0, -11.0), (6.0, -11.0)]),
        Straight(&[(-9.0, 3.0), (3.0, 3.0)]),
        Open(&[
            (3.0, 0.0, 0.0),
            (7.0, 0.0, 1.6),
            (7.0, -7.5, 1.6),
            (11.0, -7.5, 1.6),
            (11.0, 5.0, 1.6),
            (6.0, 10.0, 0.0),
        ]),
    ],
    width: GAUGE_LINE,
};

/// A thermometer's tube with marks, in a liquid; its bulb is a circle.
const THERMOMETER: Sign = Sign {
    lines: &[
        Straight(&[(0.0, -3.5), (0.0, 13.5)]),
        Straight(&[(0.0, 12.3), (6.5, 12.3)]),
        Straight(&[(0.0, 7.5), (6.5, 7.5)]),
        Straight(&[(-13.0, -5.0), (-6.5, -5.0)]),
        Straight(&[(6.5, -5.0), (13.0, -5.0)]),
        Open(&[
            (-13.0, -12.0, 0.0),
            (-9.0, -9.6, 3.0),
            (-4.5, -12.4, 3.0),
            (0.0, -9.6, 3.0),
            (4.5, -12.4, 3.0),
            (9.0, -9.6, 3.0),
            (13.0, -12.0, 0.0),
        ]),
    ],
    width: GAUGE_LINE,
};
const BULB_DROP: f64 = 3.5;
const BULB: f64 = 4.2;

pub fn coolant(center: Point) -> Shape {
    THERMOMETER.at(center).circle((center.0, center.1 - BULB_DROP), BULB)
}

/// The corners of an arrow to the right.
const ARROW: [Point; 7] =
    [(25.0, 0.0), (1.0, 21.0), (1.0, 10.0), (-23.0, 10.0), (-23.0, -10.0), (1.0, -10.0), (1.0, -21.0)];

/// An arrow to the left (-1) or right (1).
pub fn arrow(center: Point, side: f64) -> Shape {
    Shape::new().polygon(&ARROW.map(|(x, y)| (center.0 + side * x, center.1 + y)))
}

const SIDES_OF_AN_OCTAGON: i32 = 8;

/// The corners of an octagon that stands on a side.
pub fn octagon(center: Point, radius: f64) -> Vec<Point> {
    let step = 360.0 / f64::from(SIDES_OF_AN_OCTAGON);
    (0..SIDES_OF_AN_OCTAGON).map(|i| on_circle(center, radius, step * (f64::from(i) + 0.5))).collect()
}

/// The sizes of a brake's sign: the outer radii of its ring and its brackets, and the width of their lines.
pub struct Brake {
    pub ring: f64,
    pub brackets: f64,
    pub line: f64,
}

/// Half of a bracket in degrees.
const BRACKET: f64 = 48.0;

impl Brake {
    /// A ring between two brackets.
    pub fn at(&self, center: Point) -> Shape {
        let inner = self.brackets - self.line;
        Shape::new()
            .ring(center, self.ring, self.ring - self.line)
            .band(center, self.brackets, inner, -BRACKET, BRACKET)
            .band(center, self.brackets, inner, 180.0 - BRACKET, 180.0 + BRACKET)
    }
}
