//! Path data: segment bytes, and the coordinates that they take.

/// The bit of a segment byte that makes its coordinates relative to the current point.
pub const RELATIVE: u8 = 1;

/// An edge to the subpath's start.
pub const CLOSE: u8 = 0;
/// The start of a subpath: x, y.
pub const MOVE: u8 = 2;
/// A line: x, y.
pub const LINE: u8 = 4;
/// A horizontal line: x.
pub const HORIZONTAL: u8 = 6;
/// A vertical line: y.
pub const VERTICAL: u8 = 8;
/// A quadratic curve: its control, then its end.
pub const QUAD: u8 = 10;
/// A cubic curve: its two controls, then its end.
pub const CUBIC: u8 = 12;
/// A quadratic curve that goes on without a kink: its end.
pub const SMOOTH_QUAD: u8 = 14;
/// A cubic curve that goes on without a kink: its second control, then its end.
pub const SMOOTH_CUBIC: u8 = 16;

/// How many coordinates a segment byte takes; none if it is not in the format's table.
pub fn coordinates_of(byte: u8) -> Option<usize> {
    match byte & !RELATIVE {
        CLOSE => Some(0),
        MOVE | LINE | SMOOTH_QUAD => Some(2),
        HORIZONTAL | VERTICAL => Some(1),
        QUAD | SMOOTH_CUBIC => Some(4),
        CUBIC => Some(6),
        _ => None,
    }
}

/// A path as the file holds it. Each method appends a segment with absolute coordinates and returns the path.
#[derive(Clone, Debug, Default, PartialEq, Eq)]
pub struct Path {
    /// A byte for each segment, at most 128.
    pub segments: Vec<u8>,
    /// What the segments take, one behind the other: at most 566, in edition 1 550.
    pub coordinates: Vec<i16>,
}

impl Path {
    /// A path without segments.
    pub fn new() -> Path {
        Path::default()
    }

    /// Any segment byte with any coordinates.
    pub fn segment(mut self, byte: u8, coordinates: &[i16]) -> Path {
        self.segments.push(byte);
        self.coordinates.extend_from_slice(coordinates);
        self
    }

    /// An edge to the subpath's start.
    pub fn close(self) -> Path {
        self.segment(CLOSE, &[])
    }

    /// Begins a subpath. One that is open is closed by an edge, here and at the end of the path.
    pub fn move_to(self, x: i16, y: i16) -> Path {
        self.segment(MOVE, &[x, y])
    }

    /// A line.
    pub fn line_to(self, x: i16, y: i16) -> Path {
        self.segment(LINE, &[x, y])
    }

    /// A horizontal line.
    pub fn horizontal_to(self, x: i16) -> Path {
        self.segment(HORIZONTAL, &[x])
    }

    /// A vertical line.
    pub fn vertical_to(self, y: i16) -> Path {
        self.segment(VERTICAL, &[y])
    }

    /// A quadratic curve.
    pub fn quad_to(self, control: (i16, i16), to: (i16, i16)) -> Path {
        self.segment(QUAD, &[control.0, control.1, to.0, to.1])
    }

    /// A cubic curve.
    pub fn cubic_to(self, first: (i16, i16), second: (i16, i16), to: (i16, i16)) -> Path {
        self.segment(CUBIC, &[first.0, first.1, second.0, second.1, to.0, to.1])
    }

    /// A quadratic curve whose control is the last one reflected at the current point.
    pub fn smooth_quad_to(self, x: i16, y: i16) -> Path {
        self.segment(SMOOTH_QUAD, &[x, y])
    }

    /// A cubic curve whose first control is the last one reflected at the current point.
    pub fn smooth_cubic_to(self, second: (i16, i16), to: (i16, i16)) -> Path {
        self.segment(SMOOTH_CUBIC, &[second.0, second.1, to.0, to.1])
    }

    /// The closed rectangle from one corner to the other, counter-clockwise if the second is above and right.
    pub fn rectangle(self, x0: i16, y0: i16, x1: i16, y1: i16) -> Path {
        self.move_to(x0, y0).horizontal_to(x1).vertical_to(y1).horizontal_to(x0).close()
    }

    /// The closed polygon through these points.
    pub fn polygon(mut self, points: &[(i16, i16)]) -> Path {
        for (i, &(x, y)) in points.iter().enumerate() {
            self = if i == 0 { self.move_to(x, y) } else { self.line_to(x, y) };
        }
        self.close()
    }
}
