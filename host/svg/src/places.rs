//! An outline on the surface as the file holds it: whole numbers of a part of a pixel, and the matrix that brings them
//! back.

use scene::path::{CLOSE, CUBIC, HORIZONTAL, LINE, MOVE, QUAD, SMOOTH_CUBIC, SMOOTH_QUAD, VERTICAL};
use scene::place::{most_coordinates, MOST_SEGMENTS};
use scene::Path;

use crate::affine::Point;
use crate::outline::{Bounds, Outline, Segment};

/// A path and its matrix.
#[derive(Clone, Debug, PartialEq)]
pub struct Placed {
    pub path: Path,
    /// sx, shy, shx, sy, tx, ty.
    pub matrix: [f32; 6],
}

/// The edition of the scenes that are made: without transformations, and with more coordinates.
const EDITION: u16 = 0;
/// The finest step, which is the one that the surface has: 1/256 pixel.
const FINEST: f64 = 256.0;
/// How many pixels a point may be off the surface's corner.
const FARTHEST: f64 = 32_000.0;

/// The path of an outline in pixels, row 0 at the top, on a surface of some height. The matrix turns the rows.
///
/// Coordinates are steps of 1/256 pixel from the upper left corner if there is room for them; else they are taken from
/// the whole pixel in the outline's middle, with steps as fine as there is room for.
pub fn placed(outline: &Outline, height: u16) -> Result<Placed, String> {
    let points = outline.points();
    if let Some((x, y)) = points.iter().find(|(x, y)| !(x.abs() <= FARTHEST && y.abs() <= FARTHEST)) {
        return Err(format!("a point at pixel ({x:.0}, {y:.0}), further off than {FARTHEST} pixels"));
    }
    let bounds = Bounds::of(points).unwrap_or(Bounds { min: (0.0, 0.0), max: (0.0, 0.0) });
    let frame = Frame::new(bounds);
    let path = Pen::new(frame).path(outline);
    if path.segments.len() > MOST_SEGMENTS {
        return Err(format!("{} segments; a draw holds {MOST_SEGMENTS}", path.segments.len()));
    }
    let most = most_coordinates(EDITION);
    if path.coordinates.len() > most {
        return Err(format!("{} coordinates; a draw holds {most}", path.coordinates.len()));
    }
    let step = (1.0 / frame.units) as f32;
    let (x, y) = (frame.origin.0 as f32, (f64::from(height) - frame.origin.1) as f32);
    Ok(Placed { path, matrix: [step, 0.0, 0.0, -step, x, y] })
}

/// Where coordinates count from, and how many there are to a pixel.
#[derive(Clone, Copy)]
struct Frame {
    origin: Point,
    units: f64,
}

impl Frame {
    fn new(bounds: Bounds) -> Frame {
        let corner = Frame { origin: (0.0, 0.0), units: FINEST };
        if corner.holds(bounds) {
            return corner;
        }
        let middle = |low: f64, high: f64| ((low + high) / 2.0).round();
        let origin = (middle(bounds.min.0, bounds.max.0), middle(bounds.min.1, bounds.max.1));
        let mut frame = Frame { origin, units: FINEST };
        while !frame.holds(bounds) && frame.units > 1.0 {
            frame.units /= 2.0;
        }
        frame
    }

    fn holds(&self, bounds: Bounds) -> bool {
        let fits = |value: f64| value.abs() <= f64::from(i16::MAX) - 1.0;
        [bounds.min, bounds.max]
            .iter()
            .all(|(x, y)| fits((x - self.origin.0) * self.units) && fits((y - self.origin.1) * self.units))
    }

    fn whole(&self, (x, y): Point) -> (i16, i16) {
        // All points are within the bounds that the frame holds.
        (((x - self.origin.0) * self.units).round() as i16, ((y - self.origin.1) * self.units).round() as i16)
    }
}

/// Writes segments as short as they can be written without changing what is drawn.
struct Pen {
    frame: Frame,
    path: Path,
    start: (i16, i16),
    current: (i16, i16),
    /// The last control, as the format mirrors it.
    control: (i16, i16),
}

impl Pen {
    fn new(frame: Frame) -> Pen {
        Pen { frame, path: Path::new(), start: (0, 0), current: (0, 0), control: (0, 0) }
    }

    fn path(mut self, outline: &Outline) -> Path {
        for segment in &outline.segments {
            match *segment {
                Segment::Move(to) => {
                    let to = self.frame.whole(to);
                    self.put(MOVE, &[to.0, to.1]);
                    self.start = to;
                    self.go(to, to);
                }
                Segment::Line(to) => self.line(self.frame.whole(to)),
                Segment::Quad(control, to) => self.quad(self.frame.whole(control), self.frame.whole(to)),
                Segment::Cubic(first, second, to) => {
                    self.cubic(self.frame.whole(first), self.frame.whole(second), self.frame.whole(to));
                }
                Segment::Close => {
                    self.put(CLOSE, &[]);
                    self.go(self.start, self.start);
                }
            }
        }
        self.path
    }

    fn put(&mut self, byte: u8, coordinates: &[i16]) {
        self.path.segments.push(byte);
        self.path.coordinates.extend_from_slice(coordinates);
    }

    fn go(&mut self, to: (i16, i16), control: (i16, i16)) {
        self.current = to;
        self.control = control;
    }

    /// A line to where the pen is draws nothing.
    fn line(&mut self, to: (i16, i16)) {
        match (to.0 == self.current.0, to.1 == self.current.1) {
            (true, true) => return,
            (false, true) => self.put(HORIZONTAL, &[to.0]),
            (true, false) => self.put(VERTICAL, &[to.1]),
            (false, false) => self.put(LINE, &[to.0, to.1]),
        }
        self.go(to, to);
    }

    fn quad(&mut self, control: (i16, i16), to: (i16, i16)) {
        if self.mirrors(control) {
            self.put(SMOOTH_QUAD, &[to.0, to.1]);
        } else {
            self.put(QUAD, &[control.0, control.1, to.0, to.1]);
        }
        self.go(to, control);
    }

    fn cubic(&mut self, first: (i16, i16), second: (i16, i16), to: (i16, i16)) {
        if self.mirrors(first) {
            self.put(SMOOTH_CUBIC, &[second.0, second.1, to.0, to.1]);
        } else {
            self.put(CUBIC, &[first.0, first.1, second.0, second.1, to.0, to.1]);
        }
        self.go(to, second);
    }

    /// Whether a control is the last one mirrored at the pen.
    fn mirrors(&self, control: (i16, i16)) -> bool {
        let mirrored = |current: i16, last: i16| 2 * i32::from(current) - i32::from(last);
        let wanted = (i32::from(control.0), i32::from(control.1));
        wanted == (mirrored(self.current.0, self.control.0), mirrored(self.current.1, self.control.1))
    }
}

#[cfg(test)]
mod tests {
    use super::*;
    use crate::path_data;

    fn placed_data(data: &str) -> Result<Placed, String> {
        placed(&path_data::outline(data).expect("an outline"), 100)
    }

    #[test]
    fn short_segments() {
        let data = "M1 1 L5 1 L5 1 L5 5 L1 1 Q2 2 3 1 Q4 0 5 1 C5 1 6 2 7 1 C8 0 8 0 9 1 Z";
        let path = placed_data(data).expect("a path").path;
        let expected = [MOVE, HORIZONTAL, VERTICAL, LINE, QUAD, SMOOTH_QUAD, CUBIC, SMOOTH_CUBIC, CLOSE];
        assert_eq!(path.segments, expected);
        assert_eq!(path.coordinates[..4], [256, 256, 1_280, 1_280]);
    }

    #[test]
    fn as_fine_as_there_is_room_for() {
        let step = |data: &str| placed_data(data).map(|placed| (placed.matrix[0], placed.matrix[4], placed.matrix[5]));
        assert_eq!(step("M0 0 L127 127"), Ok((1.0 / 256.0, 0.0, 100.0)));
        assert_eq!(step("M500 500 L600 600"), Ok((1.0 / 256.0, 550.0, -450.0)));
        assert_eq!(step("M0 0 L1000 10"), Ok((1.0 / 64.0, 500.0, 95.0)));
        assert_eq!(step("M-32000 0 L32000 10"), Ok((1.0, 0.0, 95.0)));
        assert!(step("M-32001 0 L32000 10").is_err());
    }

    #[test]
    fn what_a_draw_has_no_room_for() {
        let zigzag = |count: usize| format!("M0 0{}", " L1 2 L3 5".repeat(count));
        assert!(placed_data(&zigzag(63)).is_ok());
        assert_eq!(placed_data(&zigzag(64)), Err("129 segments; a draw holds 128".to_string()));
        let curves = format!("M0 0{}", " C1 2 3 5 4 1 C1 1 2 3 0 0".repeat(48));
        assert_eq!(placed_data(&curves), Err("578 coordinates; a draw holds 566".to_string()));
    }
}
