//! The rules of the scene file, judged on the fields before anything is written.

use crate::path::{coordinates_of, HORIZONTAL, MOVE, RELATIVE, SMOOTH_CUBIC, SMOOTH_QUAD, VERTICAL};
use crate::place::{most_coordinates, MOST_DRAWS, MOST_SCISSORS, MOST_SEGMENTS, MOST_STOPS};
use crate::{Draw, Error, Fault, PaintType, Path, Scene};

const MOST_PIXELS: u16 = 1_024;
const LAST_EDITION: u16 = 1;

const MOST_SCALE: f32 = 256.0;
const MOST_SHIFT: f32 = 32_768.0;
const MOST_LINEAR: f32 = 4_096.0;
const MOST_RADIAL: f32 = 1_024.0;
/// The greatest distance of a point from the surface's origin, on either axis, in 1/256 pixel.
const MOST_DISTANCE: i64 = 8_388_608;

impl Scene {
    /// The scene file, if it keeps every rule of the format: the library takes it, with a mask lent where a draw asks for it.
    ///
    /// ```
    /// use wayramesh_scene::{Draw, Fault, Path, Scene};
    ///
    /// let mut scene = Scene::new(4, 4, [0, 0, 0, 255]);
    /// scene.draws.push(Draw { color: [1.0, 0.0, 0.0, 1.0], path: Path::new().rectangle(0, 0, 2, 2), ..Draw::default() });
    /// assert_eq!(scene.build().map(|file| file.len()), Ok(2_560));
    ///
    /// scene.draws[0].matrix[4] = f32::NAN;
    /// let error = scene.build().unwrap_err();
    /// assert_eq!((error.draw, error.fault), (Some(0), Fault::BadNumber));
    /// assert_eq!(error.to_string(), "draw 0: a float is NaN or beyond its limit");
    /// ```
    pub fn build(&self) -> Result<Vec<u8>, Error> {
        self.judge()?;
        Ok(self.bytes())
    }

    /// Whether the scene keeps every rule of the format, or what it meets first: its own fields, then its draws in order.
    pub fn judge(&self) -> Result<(), Error> {
        let own = |fault| Error { draw: None, fault };
        let side = 1..=MOST_PIXELS;
        require(side.contains(&self.width) && side.contains(&self.height), Fault::BadSize).map_err(own)?;
        require(self.edition <= LAST_EDITION, Fault::BadEdition).map_err(own)?;
        require(self.draws.len() <= MOST_DRAWS, Fault::TooManyDraws).map_err(own)?;
        for (i, draw) in self.draws.iter().enumerate() {
            draw.judge(self.edition).map_err(|fault| Error { draw: Some(i), fault })?;
        }
        Ok(())
    }
}

impl Draw {
    fn judge(&self, edition: u16) -> Result<(), Fault> {
        require(edition == LAST_EDITION || !self.transformed, Fault::BadEdition)?;
        require(self.scissors.len() <= MOST_SCISSORS, Fault::TooManyScissors)?;
        let radial = self.paint == PaintType::Radial;
        require(self.stops.len() + usize::from(radial) <= MOST_STOPS, Fault::TooManyStops)?;
        self.judge_floats(edition)?;
        if radial {
            require(focus_within(self.radial.map(|v| whole(v, 16.0))), Fault::BadFocus)?;
        }
        self.path.judge_counts(edition)?;
        if !self.path.segments.is_empty() {
            let matrix = self.matrix.map(|v| whole(v, 65_536.0));
            require(matrix[0] * matrix[3] != matrix[1] * matrix[2], Fault::FlatMatrix)?;
            require(self.path.points_allowed(matrix), Fault::BadPoint)?;
        }
        Ok(())
    }

    fn judge_floats(&self, edition: u16) -> Result<(), Fault> {
        let most = |values: &[f32], most: f32| values.iter().all(|v| v.abs() <= most);
        let numbers = |values: &[f32]| values.iter().all(|v| !v.is_nan());
        let stops = self.stops.iter().all(|stop| !stop.offset.is_nan() && numbers(&stop.color));
        let allowed = most(&self.matrix[..4], MOST_SCALE)
            && most(&self.matrix[4..], MOST_SHIFT)
            && numbers(&self.color)
            && most(&self.linear, MOST_LINEAR)
            && (self.paint != PaintType::Radial || most(&self.radial, MOST_RADIAL))
            && stops
            && (edition != LAST_EDITION || numbers(&self.transformation));
        require(allowed, Fault::BadNumber)
    }
}

impl Path {
    fn judge_counts(&self, edition: u16) -> Result<(), Fault> {
        require(self.segments.len() <= MOST_SEGMENTS, Fault::TooManySegments)?;
        let taken = self.segments.iter().map(|&segment| coordinates_of(segment)).sum::<Option<usize>>();
        require(taken == Some(self.coordinates.len()), Fault::BadSegment)?;
        require(self.coordinates.len() <= most_coordinates(edition), Fault::TooManyCoordinates)
    }

    /// Whether every point is in the format's range under a matrix in 1/65,536. The counts are right.
    fn points_allowed(&self, matrix: [i64; 6]) -> bool {
        let mut pen = Pen { matrix, ..Pen::default() };
        let mut coordinates = self.coordinates.iter().map(|&coordinate| i64::from(coordinate));
        self.segments.iter().all(|&segment| pen.walk(segment, &mut coordinates))
    }
}

/// Where a path stands, in its own units.
#[derive(Default)]
struct Pen {
    /// sx, shy, shx, sy, tx, ty in 1/65,536.
    matrix: [i64; 6],
    start: (i64, i64),
    current: (i64, i64),
    control: (i64, i64),
}

impl Pen {
    /// Walks a segment; whether all of its points are in range.
    fn walk(&mut self, segment: u8, coordinates: &mut impl Iterator<Item = i64>) -> bool {
        let number = segment & !RELATIVE;
        let origin = if segment & RELATIVE != 0 { self.current } else { (0, 0) };
        let smooth = matches!(number, SMOOTH_QUAD | SMOOTH_CUBIC);
        let reflected = (2 * self.current.0 - self.control.0, 2 * self.current.1 - self.control.1);
        let mut points = if smooth { vec![reflected] } else { Vec::new() };
        let mut next = || coordinates.next().unwrap_or(0);
        match number {
            HORIZONTAL => points.push((origin.0 + next(), self.current.1)),
            VERTICAL => points.push((self.current.0, origin.1 + next())),
            _ => {
                for _ in 0..coordinates_of(segment).unwrap_or(0) / 2 {
                    points.push((origin.0 + next(), origin.1 + next()));
                }
            }
        }
        let last = points.last().copied().unwrap_or(self.start);
        self.control = if points.len() > 1 { points[points.len() - 2] } else { last };
        self.current = last;
        if number == MOVE {
            self.start = last;
        }
        points.into_iter().all(|point| self.allowed(point))
    }

    fn allowed(&self, (x, y): (i64, i64)) -> bool {
        let [sx, shy, shx, sy, tx, ty] = self.matrix;
        let near = |sum: i64| (sum + 128).div_euclid(256).abs() <= MOST_DISTANCE;
        let range = -32_768..=32_767;
        range.contains(&x) && range.contains(&y) && near(sx * x + shx * y + tx) && near(shy * x + sy * y + ty)
    }
}

/// Whether a focal point lies within its circle: cx, cy, fx, fy, r. Without a circle it lies anywhere.
fn focus_within([cx, cy, fx, fy, r]: [i64; 5]) -> bool {
    r <= 0 || (fx - cx).pow(2) + (fy - cy).pow(2) < r.pow(2)
}

/// floor(scale * v + 1/2) of a float within its limit: exact, as an f64 has places for all of its digits, and where it has
/// not, the number is so small that the half decides.
fn whole(v: f32, scale: f64) -> i64 {
    (f64::from(v) * scale + 0.5).floor() as i64
}

fn require(holds: bool, fault: Fault) -> Result<(), Fault> {
    if holds {
        Ok(())
    } else {
        Err(fault)
    }
}
