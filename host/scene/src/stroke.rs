//! Lines of a constant width, as outlines to fill: straight pieces with rounded, mitred or bevelled corners.
//!
//! Every outline runs clockwise round what it covers, so that outlines that overlap fill as one by the non-zero rule.

use crate::shape::{Point, Shape};

/// A corner that turns by more than this many degrees is bevelled: its mitre would be a spike.
const GREATEST_MITRE: f64 = 120.0;
/// Shorter pieces than this, in pixels, are none.
const SHORTEST: f64 = 1e-6;

/// A line of a letter or a sign: its points, with the radii of its turns unless it is made of straight pieces. One with fewer
/// than two points draws nothing, nor does a closed one with fewer than three.
#[derive(Clone, Copy, Debug)]
pub enum Line {
    /// Straight pieces through these points.
    Straight(&'static [Point]),
    /// From the first point to the last: x, y and the radius in which the line turns there.
    Open(&'static [(f64, f64, f64)]),
    /// The same, and back to the first point.
    Closed(&'static [(f64, f64, f64)]),
}

/// A point of a line, and the radius in which the line turns there.
#[derive(Clone, Copy)]
struct Corner {
    at: Point,
    radius: f64,
}

/// Appends lines that are measured in a unit from an origin; the width is in pixels.
pub fn lines(shape: Shape, lines: &[Line], origin: Point, unit: f64, width: f64) -> Shape {
    let corner =
        |x: f64, y: f64, radius: f64| Corner { at: (origin.0 + x * unit, origin.1 + y * unit), radius: radius * unit };
    let sharp = |points: &[Point]| points.iter().map(|&(x, y)| corner(x, y, 0.0)).collect::<Vec<_>>();
    let turning =
        |points: &[(f64, f64, f64)]| points.iter().map(|&(x, y, radius)| corner(x, y, radius)).collect::<Vec<_>>();
    lines.iter().fold(shape, |shape, line| match line {
        Line::Straight(points) => open(shape, &sharp(points), width),
        Line::Open(points) => open(shape, &turning(points), width),
        Line::Closed(points) => closed(shape, &turning(points), width),
    })
}

/// Appends the line along a polygon's sides.
pub fn border(shape: Shape, points: &[Point], width: f64) -> Shape {
    closed(shape, &points.iter().map(|&at| Corner { at, radius: 0.0 }).collect::<Vec<_>>(), width)
}

/// Appends the outline of an open line with flat ends.
fn open(shape: Shape, corners: &[Corner], width: f64) -> Shape {
    if corners.len() < 2 {
        return shape;
    }
    let half = width / 2.0;
    let back: Vec<Corner> = corners.iter().rev().copied().collect();
    let shape = side(shape.move_to(end(corners, half)), corners, half);
    side(shape.line_to(end(&back, half)), &back, half)
}

/// Appends both outlines of a line that ends where it begins.
fn closed(shape: Shape, corners: &[Corner], width: f64) -> Shape {
    if corners.len() < 3 {
        return shape;
    }
    let half = width / 2.0;
    let back: Vec<Corner> = corners.iter().rev().copied().collect();
    loop_side(loop_side(shape, corners, half), &back, half)
}

/// The left end of a line's beginning.
fn end(corners: &[Corner], half: f64) -> Point {
    let way = Way::between(corners[0].at, corners[1].at);
    way.left_of(corners[0].at, half)
}

/// The left side of an open line, from its beginning to its end.
fn side(shape: Shape, corners: &[Corner], half: f64) -> Shape {
    let shape = corners.windows(3).fold(shape, |shape, three| turn(shape, three[0].at, three[1], three[2].at, half));
    let (before, last) = (corners[corners.len() - 2].at, corners[corners.len() - 1].at);
    shape.line_to(Way::between(before, last).left_of(last, half))
}

/// The left side of a closed line, all round.
fn loop_side(shape: Shape, corners: &[Corner], half: f64) -> Shape {
    let count = corners.len();
    let turn_at = |shape: Shape, i: usize| {
        let (before, after) = (corners[(i + count - 1) % count].at, corners[(i + 1) % count].at);
        turn(shape, before, corners[i % count], after, half)
    };
    // It begins where the turn at the first corner ends.
    let start = turn_at(Shape::new().move_to(corners[0].at), 0).end();
    (1..=count).fold(shape.move_to(start), turn_at)
}

/// The left side's turn at a corner.
fn turn(shape: Shape, before: Point, corner: Corner, after: Point, half: f64) -> Shape {
    let (into, out) = (Way::between(before, corner.at), Way::between(corner.at, after));
    let angle = into.turn_to(out);
    let radius = corner.radius - half * angle.signum();
    if corner.radius > 0.0 && radius > SHORTEST {
        let reach = corner.radius * (angle.abs() / 2.0).tan();
        let from = into.left_of(into.along(corner.at, -reach), half);
        let to = out.left_of(out.along(corner.at, reach), half);
        let pull = 4.0 / 3.0 * (angle.abs() / 4.0).tan() * radius;
        return shape.line_to(from).cubic_to(into.along(from, pull), out.along(to, -pull), to);
    }
    if angle < -GREATEST_MITRE.to_radians() {
        return shape.line_to(into.left_of(corner.at, half)).line_to(out.left_of(corner.at, half));
    }
    // Where the two sides meet.
    let side = into.left_of(corner.at, half);
    shape.line_to(into.along(side, -half * (angle / 2.0).tan()))
}

/// A direction of length 1.
#[derive(Clone, Copy)]
struct Way {
    x: f64,
    y: f64,
}

impl Way {
    fn between(from: Point, to: Point) -> Way {
        let (x, y) = (to.0 - from.0, to.1 - from.1);
        let length = x.hypot(y);
        Way { x: x / length, y: y / length }
    }

    fn along(self, from: Point, by: f64) -> Point {
        (from.0 + self.x * by, from.1 + self.y * by)
    }

    fn left_of(self, from: Point, by: f64) -> Point {
        (from.0 - self.y * by, from.1 + self.x * by)
    }

    /// The angle to another direction in radians, positive to the left.
    fn turn_to(self, other: Way) -> f64 {
        (self.x * other.y - self.y * other.x).atan2(self.x * other.x + self.y * other.y)
    }
}
