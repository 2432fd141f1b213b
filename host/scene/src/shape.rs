//! Shapes in pixels of a canvas, written as paths in sixteenths of a pixel.

use crate::place::{most_coordinates, MOST_SEGMENTS};
use crate::stroke::{self, Line};
use crate::{font, Fault, FillRule, Path};

/// Path units in a pixel.
pub const UNITS: f64 = 16.0;
/// The edition with fewer coordinates: what fits into its draws fits into all.
const NARROWEST_EDITION: u16 = 1;
/// The greatest part of a circle, in degrees, that is drawn as one cubic.
const GREATEST_ARC: f64 = 90.0;

/// x and y in pixels, row 0 the lowest.
pub type Point = (f64, f64);

/// A path with the rule that fills it. Each method appends a closed part and returns the shape; what cannot be appended is
/// left out, and [`Shape::fault`] says so.
#[derive(Clone, Debug, Default)]
pub struct Shape {
    /// The path, in sixteenths of a pixel.
    pub path: Path,
    /// What of it is inside.
    pub fill_rule: FillRule,
    fault: Option<Fault>,
}

impl Shape {
    /// An empty shape. Parts that lie in others are holes, until lines or text are appended.
    pub fn new() -> Shape {
        Shape::default()
    }

    /// What was the first that could not be appended: a point too far from the origin, about 2,048 pixels, or a letter that the
    /// font does not have.
    pub fn fault(&self) -> Option<Fault> {
        self.fault
    }

    /// The shape with a fault, if it is the first.
    pub(crate) fn spoiled(self, fault: Fault) -> Shape {
        Shape { fault: self.fault.or(Some(fault)), ..self }
    }

    /// Begins a part.
    pub fn move_to(self, to: Point) -> Shape {
        match units(to) {
            Some((x, y)) => Shape { path: self.path.move_to(x, y), ..self },
            None => self.spoiled(Fault::BadPoint),
        }
    }

    /// The point where the path stands, which is the origin at first; every segment here ends with its point.
    pub fn end(&self) -> Point {
        match self.path.coordinates[..] {
            [.., x, y] => (f64::from(x) / UNITS, f64::from(y) / UNITS),
            _ => (0.0, 0.0),
        }
    }

    /// A line, unless the path stands there.
    pub fn line_to(self, to: Point) -> Shape {
        match units(to) {
            Some((x, y)) if (f64::from(x) / UNITS, f64::from(y) / UNITS) == self.end() => self,
            Some((x, y)) => Shape { path: self.path.line_to(x, y), ..self },
            None => self.spoiled(Fault::BadPoint),
        }
    }

    /// A cubic curve with two controls.
    pub fn cubic_to(self, first: Point, second: Point, to: Point) -> Shape {
        match (units(first), units(second), units(to)) {
            (Some(first), Some(second), Some(to)) => Shape { path: self.path.cubic_to(first, second, to), ..self },
            _ => self.spoiled(Fault::BadPoint),
        }
    }

    /// The polygon through points. The last side is drawn where the next part begins, or the path ends.
    pub fn polygon(self, points: &[Point]) -> Shape {
        points.iter().enumerate().fold(self, |shape, (i, &point)| match i {
            0 => shape.move_to(point),
            _ => shape.line_to(point),
        })
    }

    /// A rectangle from its lower left corner.
    pub fn rectangle(self, x: f64, y: f64, width: f64, height: f64) -> Shape {
        self.polygon(&[(x, y), (x + width, y), (x + width, y + height), (x, y + height)])
    }

    /// A rectangle with round corners.
    pub fn rounded_rectangle(self, x: f64, y: f64, width: f64, height: f64, radius: f64) -> Shape {
        let (left, right) = (x + radius, x + width - radius);
        let (bottom, top) = (y + radius, y + height - radius);
        self.move_to((right, y))
            .arc((right, bottom), radius, -90.0, 0.0)
            .arc((right, top), radius, 0.0, 90.0)
            .arc((left, top), radius, 90.0, 180.0)
            .arc((left, bottom), radius, 180.0, 270.0)
    }

    /// A circle, clockwise, as lines are.
    pub fn circle(self, center: Point, radius: f64) -> Shape {
        self.move_to(on_circle(center, radius, 0.0)).arc(center, radius, 0.0, -360.0)
    }

    /// A hollow circle, by either fill rule.
    pub fn ring(self, center: Point, outer: f64, inner: f64) -> Shape {
        self.circle(center, outer).move_to(on_circle(center, inner, 0.0)).arc(center, inner, 0.0, 360.0)
    }

    /// The part of a ring between two angles in degrees, counter-clockwise from the right.
    pub fn band(self, center: Point, outer: f64, inner: f64, from: f64, to: f64) -> Shape {
        self.move_to(on_circle(center, outer, from)).arc(center, outer, from, to).arc(center, inner, to, from)
    }

    /// A bar along the ray at an angle, from an inner to an outer distance.
    pub fn tick(self, center: Point, inner: f64, outer: f64, width: f64, degrees: f64) -> Shape {
        self.slanted_tick(center, (inner, degrees), (outer, degrees), width)
    }

    /// A bar between two places, each a distance from a centre and an angle, cut off along the ray's normal.
    pub fn slanted_tick(self, center: Point, inner: (f64, f64), outer: (f64, f64), width: f64) -> Shape {
        let end = |(distance, degrees): (f64, f64), by: f64| along_tangent(center, distance, degrees, by);
        let half = width / 2.0;
        self.polygon(&[end(inner, -half), end(outer, -half), end(outer, half), end(inner, half)])
    }

    /// Lines of a letter or a sign, measured in a unit from an origin.
    pub fn lines(self, lines: &[Line], origin: Point, unit: f64, width: f64) -> Shape {
        stroke::lines(self.filled_as_one(), lines, origin, unit, width)
    }

    /// The line along a polygon's sides.
    pub fn border(self, points: &[Point], width: f64) -> Shape {
        stroke::border(self.filled_as_one(), points, width)
    }

    /// Text with its middle at a point; `height` is that of a digit.
    pub fn text(self, text: &str, middle: Point, height: f64) -> Shape {
        let left = middle.0 - font::width(text, height) / 2.0;
        font::write(self, text, (left, middle.1 - height / 2.0), height)
    }

    /// Both shapes, if a draw has places for them.
    pub fn joined(&self, other: &Shape) -> Option<Shape> {
        let (mut path, more) = (self.path.clone(), &other.path);
        path.segments.extend(&more.segments);
        path.coordinates.extend(&more.coordinates);
        let as_one = [self.fill_rule, other.fill_rule].contains(&FillRule::NonZero);
        let fill_rule = if as_one { FillRule::NonZero } else { FillRule::EvenOdd };
        let joined = Shape { path, fill_rule, fault: self.fault.or(other.fault) };
        joined.fits().then_some(joined)
    }

    /// Whether a draw has places for the shape.
    pub fn fits(&self) -> bool {
        self.excess().is_none()
    }

    /// What of the shape a draw has no places for.
    pub(crate) fn excess(&self) -> Option<Fault> {
        if self.path.segments.len() > MOST_SEGMENTS {
            Some(Fault::TooManySegments)
        } else if self.path.coordinates.len() > most_coordinates(NARROWEST_EDITION) {
            Some(Fault::TooManyCoordinates)
        } else {
            None
        }
    }

    /// A line to where an arc about a centre begins, and the arc.
    pub fn arc(self, center: Point, radius: f64, from: f64, to: f64) -> Shape {
        let pieces = ((to - from).abs() / GREATEST_ARC).ceil().max(1.0);
        if pieces > MOST_SEGMENTS as f64 {
            return self.spoiled(Fault::TooManySegments);
        }
        let step = (to - from) / pieces;
        let reach = radius * 4.0 / 3.0 * (step.to_radians() / 4.0).tan();
        (0..pieces as i32).fold(self.line_to(on_circle(center, radius, from)), |shape, i| {
            let (start, end) = (from + step * f64::from(i), from + step * f64::from(i + 1));
            let first = along_tangent(center, radius, start, reach);
            let second = along_tangent(center, radius, end, -reach);
            shape.cubic_to(first, second, on_circle(center, radius, end))
        })
    }

    fn filled_as_one(self) -> Shape {
        Shape { fill_rule: FillRule::NonZero, ..self }
    }
}

/// The point of a circle at an angle in degrees, counter-clockwise from the right.
pub fn on_circle(center: Point, radius: f64, degrees: f64) -> Point {
    along_tangent(center, radius, degrees, 0.0)
}

/// The point of a circle at an angle, moved along the tangent.
fn along_tangent(center: Point, radius: f64, degrees: f64, by: f64) -> Point {
    let (sin, cos) = degrees.to_radians().sin_cos();
    (center.0 + radius * cos - by * sin, center.1 + radius * sin + by * cos)
}

/// A point in path units, if it is in their range.
fn units((x, y): Point) -> Option<(i16, i16)> {
    let unit = |v: f64| {
        let units = (v * UNITS).round();
        (f64::from(i16::MIN)..=f64::from(i16::MAX)).contains(&units).then_some(units as i16)
    };
    Some((unit(x)?, unit(y)?))
}
