//! Outlines: lines and curves in the units of some coordinate system.

use crate::affine::{Affine, Point};

#[derive(Clone, Copy, Debug, PartialEq)]
pub enum Segment {
    Move(Point),
    Line(Point),
    Quad(Point, Point),
    Cubic(Point, Point, Point),
    Close,
}

/// Segments, each from where the last one ended.
#[derive(Clone, Debug, Default, PartialEq)]
pub struct Outline {
    pub segments: Vec<Segment>,
}

/// A rectangle with sides along the axes.
#[derive(Clone, Copy, Debug, PartialEq)]
pub struct Bounds {
    pub min: Point,
    pub max: Point,
}

impl Bounds {
    /// The smallest one that holds some points.
    pub fn of(points: impl IntoIterator<Item = Point>) -> Option<Bounds> {
        let grown = |bounds: Option<Bounds>, (x, y): Point| {
            let Bounds { min, max } = bounds.unwrap_or(Bounds { min: (x, y), max: (x, y) });
            Some(Bounds { min: (min.0.min(x), min.1.min(y)), max: (max.0.max(x), max.1.max(y)) })
        };
        points.into_iter().fold(None, grown)
    }

    pub fn width(&self) -> f64 {
        self.max.0 - self.min.0
    }

    pub fn height(&self) -> f64 {
        self.max.1 - self.min.1
    }

    /// The map that brings the square from (0, 0) to (1, 1) onto it.
    pub fn unit_map(&self) -> Affine {
        Affine::new([self.width(), 0.0, 0.0, self.height(), self.min.0, self.min.1])
    }
}

/// How far a quarter circle's controls are from its ends, as a share of the radius.
const ROUND: f64 = 0.552_284_749_831;

impl Outline {
    pub fn move_to(&mut self, to: Point) {
        self.segments.push(Segment::Move(to));
    }

    pub fn line_to(&mut self, to: Point) {
        self.segments.push(Segment::Line(to));
    }

    pub fn close(&mut self) {
        self.segments.push(Segment::Close);
    }

    /// A quarter of an ellipse from a point to another; it leaves along the x axis, or else along the y axis.
    pub fn quarter(&mut self, from: Point, to: Point, along_x: bool) {
        let (x, y) = ((to.0 - from.0) * ROUND, (to.1 - from.1) * ROUND);
        let (first, second) =
            if along_x { ((from.0 + x, from.1), (to.0, to.1 - y)) } else { ((from.0, from.1 + y), (to.0 - x, to.1)) };
        self.segments.push(Segment::Cubic(first, second, to));
    }

    /// The outline under a map.
    pub fn mapped(&self, map: &Affine) -> Outline {
        let at = |point| map.apply(point);
        let segments = self.segments.iter().map(|segment| match *segment {
            Segment::Move(to) => Segment::Move(at(to)),
            Segment::Line(to) => Segment::Line(at(to)),
            Segment::Quad(control, to) => Segment::Quad(at(control), at(to)),
            Segment::Cubic(first, second, to) => Segment::Cubic(at(first), at(second), at(to)),
            Segment::Close => Segment::Close,
        });
        Outline { segments: segments.collect() }
    }

    /// All points and controls.
    pub fn points(&self) -> Vec<Point> {
        let mut points = Vec::new();
        for segment in &self.segments {
            match *segment {
                Segment::Move(to) | Segment::Line(to) => points.push(to),
                Segment::Quad(control, to) => points.extend([control, to]),
                Segment::Cubic(first, second, to) => points.extend([first, second, to]),
                Segment::Close => {}
            }
        }
        points
    }

    /// The smallest rectangle that holds all of it: ends, and where curves turn back.
    pub fn bounds(&self) -> Option<Bounds> {
        let mut points = Vec::new();
        let (mut start, mut current) = ((0.0, 0.0), (0.0, 0.0));
        for segment in &self.segments {
            let (cubic, to) = match *segment {
                Segment::Move(to) => (None, to),
                Segment::Line(to) => (None, to),
                Segment::Quad(control, to) => (Some([current, third(current, control), third(to, control), to]), to),
                Segment::Cubic(first, second, to) => (Some([current, first, second, to]), to),
                Segment::Close => (None, start),
            };
            points.extend(cubic.into_iter().flat_map(turning_points));
            points.push(to);
            current = to;
            if let Segment::Move(to) = *segment {
                start = to;
            }
        }
        Bounds::of(points)
    }
}

/// The control of a cubic curve that goes as the quadratic one with an end and its control.
fn third(end: Point, control: Point) -> Point {
    (end.0 + (control.0 - end.0) * 2.0 / 3.0, end.1 + (control.1 - end.1) * 2.0 / 3.0)
}

/// The points of a cubic curve where it turns back on an axis.
fn turning_points(curve: [Point; 4]) -> Vec<Point> {
    let xs = turns(curve.map(|point| point.0));
    let ys = turns(curve.map(|point| point.1));
    let at = |t: f64| (cubic(curve.map(|point| point.0), t), cubic(curve.map(|point| point.1), t));
    xs.into_iter().chain(ys).map(at).collect()
}

fn cubic([p0, p1, p2, p3]: [f64; 4], t: f64) -> f64 {
    let u = 1.0 - t;
    u * u * u * p0 + 3.0 * u * u * t * p1 + 3.0 * u * t * t * p2 + t * t * t * p3
}

/// Where between 0 and 1 the derivative of a cubic is zero.
fn turns([p0, p1, p2, p3]: [f64; 4]) -> Vec<f64> {
    let (a, b, c) = (p3 - 3.0 * p2 + 3.0 * p1 - p0, 2.0 * (p2 - 2.0 * p1 + p0), p1 - p0);
    let roots = if a.abs() < 1e-12 {
        vec![-c / b]
    } else {
        let root = (b * b - 4.0 * a * c).sqrt();
        vec![(-b + root) / (2.0 * a), (-b - root) / (2.0 * a)]
    };
    roots.into_iter().filter(|t| *t > 0.0 && *t < 1.0).collect()
}

#[cfg(test)]
mod tests {
    use super::*;

    #[test]
    fn bounds_of_curves_are_not_those_of_controls() {
        let mut quad = Outline::default();
        quad.move_to((0.0, 0.0));
        quad.segments.push(Segment::Quad((5.0, 10.0), (10.0, 0.0)));
        assert_eq!(quad.bounds(), Some(Bounds { min: (0.0, 0.0), max: (10.0, 5.0) }));
        let mut round = Outline::default();
        round.move_to((4.0, 0.0));
        round.quarter((4.0, 0.0), (0.0, 4.0), false);
        assert_eq!(round.bounds(), Some(Bounds { min: (0.0, 0.0), max: (4.0, 4.0) }));
        assert_eq!(Outline::default().bounds(), None);
    }
}
