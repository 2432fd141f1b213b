//! Paths: the walk over the segments, points in surface units, curves cut in sixteen, and the edges drawn.

use crate::number::scaled;

/// Surface units, 1/256 pixel, or user units as the coordinates give them.
#[derive(Clone, Copy, Debug, Default, PartialEq, Eq)]
pub struct Point {
    pub x: i64,
    pub y: i64,
}

/// A straight piece between two different points in surface units.
#[derive(Clone, Copy, Debug, PartialEq, Eq)]
pub struct Edge {
    pub from: Point,
    pub to: Point,
}

/// The user-to-surface matrix with entries in 1/65,536.
#[derive(Clone, Copy, Debug)]
pub struct Matrix {
    sx: i64,
    shy: i64,
    shx: i64,
    sy: i64,
    tx: i64,
    ty: i64,
}

impl Matrix {
    /// From sx, shy, shx, sy, tx, ty.
    pub fn new(entries: [f32; 6]) -> Matrix {
        let [sx, shy, shx, sy, tx, ty] = entries.map(|v| scaled(v, 16));
        Matrix { sx, shy, shx, sy, tx, ty }
    }

    /// Whether every path becomes a line or a point, judged on the whole numbers.
    pub fn is_flat(&self) -> bool {
        self.sx * self.sy == self.shx * self.shy
    }

    /// A user point in surface units.
    pub fn surface_point(&self, user: Point) -> Point {
        let round = |sum: i64| (sum + 128).div_euclid(256);
        Point {
            x: round(self.sx * user.x + self.shx * user.y + self.tx),
            y: round(self.shy * user.x + self.sy * user.y + self.ty),
        }
    }
}

/// Why a segment is refused.
#[derive(Clone, Copy, Debug, PartialEq, Eq)]
pub enum SegmentFault {
    Arc,
    /// No command has this byte.
    Unknown,
    /// The coordinates have run out.
    TooFewCoordinates,
    /// A point of the path, a reflected one too, leaves 16 bits.
    PointOutOfRange(Point),
    /// A point of the path that the matrix takes too far, in surface units.
    PointTooFar(Point),
}

#[derive(Debug)]
pub struct Path {
    pub edges: Vec<Edge>,
    pub coordinates_used: usize,
}

/// Walks all segments; a refused one is named with its number.
pub fn walk(segments: &[u8], coordinates: &[i16], matrix: &Matrix) -> Result<Path, (SegmentFault, usize)> {
    let mut walker = Walker {
        coordinates,
        used: 0,
        matrix,
        start: Point::default(),
        current: Point::default(),
        control: Point::default(),
        edges: Vec::new(),
    };
    for (number, &segment) in segments.iter().enumerate() {
        walker.segment(segment).map_err(|fault| (fault, number))?;
    }
    walker.end_subpath();
    Ok(Path { edges: walker.edges, coordinates_used: walker.used })
}

/// The pen of document 003, section 8.5.1, in user units, and what has been read and drawn.
struct Walker<'a> {
    coordinates: &'a [i16],
    used: usize,
    matrix: &'a Matrix,
    start: Point,
    current: Point,
    control: Point,
    edges: Vec<Edge>,
}

impl Walker<'_> {
    fn segment(&mut self, byte: u8) -> Result<(), SegmentFault> {
        if byte > 31 {
            return Err(SegmentFault::Unknown);
        }
        let relative = byte & 1 == 1;
        match byte & 0x1E {
            0 => {
                self.end_subpath();
                self.current = self.start;
                self.control = self.start;
            }
            2 => {
                let [to] = self.points(relative)?;
                self.end_subpath();
                self.start = to;
                self.current = to;
                self.control = to;
            }
            4 => {
                let [to] = self.points(relative)?;
                self.line(to);
            }
            6 => {
                let [x] = self.take()?;
                let x = if relative { self.current.x + x } else { x };
                let to = Point { x, y: self.current.y };
                self.allow(to)?;
                self.line(to);
            }
            8 => {
                let [y] = self.take()?;
                let y = if relative { self.current.y + y } else { y };
                let to = Point { x: self.current.x, y };
                self.allow(to)?;
                self.line(to);
            }
            10 => {
                let [control, to] = self.points(relative)?;
                self.curve(&[control], to);
            }
            12 => {
                let [first, second, to] = self.points(relative)?;
                self.curve(&[first, second], to);
            }
            14 => {
                let [to] = self.points(relative)?;
                let control = self.reflected();
                self.allow(control)?;
                self.curve(&[control], to);
            }
            16 => {
                let [second, to] = self.points(relative)?;
                let first = self.reflected();
                self.allow(first)?;
                self.curve(&[first, second], to);
            }
            18..=24 => return Err(SegmentFault::Arc),
            _ => return Err(SegmentFault::Unknown),
        }
        Ok(())
    }

    /// The next coordinates as they stand.
    fn take<const N: usize>(&mut self) -> Result<[i64; N], SegmentFault> {
        let next = self.coordinates.get(self.used..self.used + N).ok_or(SegmentFault::TooFewCoordinates)?;
        self.used += N;
        Ok(std::array::from_fn(|i| i64::from(next[i])))
    }

    /// The next points, absolute and allowed.
    fn points<const N: usize>(&mut self, relative: bool) -> Result<[Point; N], SegmentFault> {
        let mut points = [Point::default(); N];
        for point in &mut points {
            let [x, y] = self.take()?;
            *point = if relative { Point { x: self.current.x + x, y: self.current.y + y } } else { Point { x, y } };
            self.allow(*point)?;
        }
        Ok(points)
    }

    /// The first control of a smooth segment.
    fn reflected(&self) -> Point {
        Point { x: 2 * self.current.x - self.control.x, y: 2 * self.current.y - self.control.y }
    }

    /// Every point stays in 16 bits, and in surface units within 2^23 of the origin.
    fn allow(&self, user: Point) -> Result<(), SegmentFault> {
        let in_user_range = |v| (-32_768..=32_767).contains(&v);
        let in_surface_range = |v: i64| v.abs() <= 8_388_608;
        if !in_user_range(user.x) || !in_user_range(user.y) {
            return Err(SegmentFault::PointOutOfRange(user));
        }
        let surface = self.matrix.surface_point(user);
        if !in_surface_range(surface.x) || !in_surface_range(surface.y) {
            return Err(SegmentFault::PointTooFar(surface));
        }
        Ok(())
    }

    fn line(&mut self, to: Point) {
        self.edge(self.matrix.surface_point(self.current), self.matrix.surface_point(to));
        self.current = to;
        self.control = to;
    }

    /// A curve through the given inner controls, the last of which is kept.
    fn curve(&mut self, controls: &[Point], to: Point) {
        let mut hull = vec![self.matrix.surface_point(self.current)];
        hull.extend(controls.iter().map(|&c| self.matrix.surface_point(c)));
        hull.push(self.matrix.surface_point(to));
        let mut from = hull[0];
        for k in 1..=16 {
            let cut = cut(&hull, k);
            self.edge(from, cut);
            from = cut;
        }
        self.current = to;
        self.control = controls[controls.len() - 1];
    }

    /// The closing edge of the subpath, if it is open.
    fn end_subpath(&mut self) {
        self.edge(self.matrix.surface_point(self.current), self.matrix.surface_point(self.start));
    }

    fn edge(&mut self, from: Point, to: Point) {
        if from != to {
            self.edges.push(Edge { from, to });
        }
    }
}

/// The point at k sixteenths of a quad or a cubic, rounded.
pub fn cut(hull: &[Point], k: i64) -> Point {
    let u = 16 - k;
    let weights = match hull.len() {
        3 => vec![u * u, 2 * k * u, k * k],
        4 => vec![u * u * u, 3 * k * u * u, 3 * k * k * u, k * k * k],
        other => unreachable!("a curve of {other} points"),
    };
    let total: i64 = if hull.len() == 3 { 256 } else { 4_096 };
    let coordinate = |of: fn(&Point) -> i64| {
        let sum: i64 = hull.iter().zip(&weights).map(|(p, w)| of(p) * w).sum();
        (2 * sum + total).div_euclid(2 * total)
    };
    Point { x: coordinate(|p| p.x), y: coordinate(|p| p.y) }
}
