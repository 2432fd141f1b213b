//! Random paths, and the matrices that bring them onto a surface.

use scene::path::{Path, CLOSE, CUBIC, HORIZONTAL, LINE, MOVE, QUAD, RELATIVE, SMOOTH_CUBIC, SMOOTH_QUAD, VERTICAL};

use crate::Random;

/// A matrix and the largest coordinate that makes sense under it.
pub struct Frame {
    pub matrix: [f32; 6],
    pub reach: i32,
}

/// A matrix under which most paths touch a surface of this size.
pub fn frame(random: &mut Random, width: u16, height: u16) -> Frame {
    let size = i32::from(width.max(height));
    let scaled = |matrix, units: i32| Frame { matrix, reach: ((size + 6) * units).min(32_767) };
    let shift = |random: &mut Random, step: f32| step * random.range(-8, 8) as f32;
    match random.range(0, 11) {
        0 => scaled([1.0, 0.0, 0.0, 1.0, 0.0, 0.0], 1),
        // Coordinates on the sample points, so that crossings and ends meet samples exactly.
        1 | 2 => {
            let (tx, ty) = (shift(random, 0.125), shift(random, 0.125));
            scaled([0.125, 0.0, 0.0, 0.125, tx, ty], 8)
        }
        3 | 4 => {
            let (tx, ty) = (shift(random, 0.03), shift(random, 0.03));
            scaled([0.0625, 0.0, 0.0, 0.0625, tx, ty], 16)
        }
        5 => {
            // Turned by any angle about the middle.
            let angle = random.float(0.0, 6.3);
            let (sin, cos) = (angle.sin() / 16.0, angle.cos() / 16.0);
            let middle = size as f32 / 2.0;
            scaled([cos, sin, -sin, cos, middle, middle], 16)
        }
        6 => {
            // Upside down, or left to right.
            let flip = random.pick(&[[-1.0, 1.0], [1.0, -1.0], [-1.0, -1.0_f32]]);
            let (tx, ty) = (f32::from(width), f32::from(height));
            scaled([flip[0] / 4.0, 0.0, 0.0, flip[1] / 4.0, tx, ty], 4)
        }
        7 => {
            let entries = std::array::from_fn(|_| random.float(-0.2, 0.2));
            scaled(entries, 12)
        }
        8 if random.once_in(12) => flat(random, size),
        8 => thin(random, size),
        9 => far(random),
        // The whole range of coordinates, of which the surface is a small part.
        10 => Frame { matrix: [1.0, 0.0, 0.0, 1.0, shift(random, 1.0), 0.0], reach: 32_768 },
        _ => Frame {
            matrix: [tiny(random), tiny(random), tiny(random), tiny(random), size as f32 / 2.0, size as f32 / 3.0],
            reach: 32_768,
        },
    }
}

/// A matrix that maps all to nearly a line or a point, but is not flat as whole numbers.
fn thin(random: &mut Random, size: i32) -> Frame {
    let step = 1.0 / 65_536.0;
    let matrix = random.pick(&[
        [step, 0.0, 0.0, step, 2.5, 2.5],
        [step, 0.0, 0.0, 1.0, 3.5, 0.0],
        [1.0, 0.0, 0.0, -step, 0.0, 2.5],
        [0.5, 0.5, 0.5, 0.5 + step, 0.0, 0.0],
        [0.3, 0.6, 0.1, 0.2, 0.0, 0.0],
        [0.0, step, 1.0, 0.0, 0.0, 1.0],
    ]);
    Frame { matrix, reach: size + 4 }
}

/// A matrix that maps all to a line or a point.
fn flat(random: &mut Random, size: i32) -> Frame {
    let matrix = random.pick(&[
        [0.0; 6],
        [0.0, 0.0, 0.0, 1.0, 3.5, 0.0],
        [1.0, 0.0, 0.0, 0.0, 0.0, 2.5],
        [0.5, 0.5, 0.5, 0.5, 0.0, 0.0],
        [-0.0, 1e-7, -1e-7, 0.0, 1.0, 1.0],
    ]);
    Frame { matrix, reach: size + 4 }
}

/// Large entries, near or at their limits, under which few coordinates are allowed.
fn far(random: &mut Random) -> Frame {
    let scale = |random: &mut Random| random.pick(&[256.0, -256.0, 255.99998, 100.3, -31.7, 3.1, 0.0]);
    let (sx, sy) = (scale(random), scale(random));
    let (shx, shy) = (random.pick(&[0.0, 1.0, -40.5]), random.pick(&[0.0, -2.0, 64.25]));
    let translation = |random: &mut Random| random.pick(&[0.0, 1.5, -300.0, 9_000.0, -20_000.25, 32_768.0, -32_768.0]);
    Frame { matrix: [sx, shy, shx, sy, translation(random), translation(random)], reach: random.pick(&[3, 20, 90]) }
}

/// An entry of about the size of a matrix's smallest step, 1/65,536.
fn tiny(random: &mut Random) -> f32 {
    random.float(-1.0, 1.0) * random.pick(&[2e-2, 1e-3, 1e-4, 1.6e-5, 7.6e-6, 1e-9, 1e-40])
}

/// A path of about this many segments with coordinates within `reach`, from all segment types, for either edition.
pub fn path(random: &mut Random, segments: usize, reach: i32) -> Path {
    let mut pen = Pen { path: Path::new(), reach, start: (0, 0), current: (0, 0), control: (0, 0) };
    while pen.path.segments.len() < segments && pen.path.coordinates.len() + 6 <= 550 {
        pen.segment(random);
    }
    pen.path
}

type Point = (i32, i32);

/// The path so far and the points that the next segment goes from, so that none leaves the 16 bits.
struct Pen {
    path: Path,
    reach: i32,
    start: Point,
    current: Point,
    control: Point,
}

impl Pen {
    fn segment(&mut self, random: &mut Random) {
        let kind = random.pick(&[
            CLOSE,
            MOVE,
            MOVE,
            LINE,
            LINE,
            LINE,
            LINE,
            HORIZONTAL,
            VERTICAL,
            QUAD,
            QUAD,
            CUBIC,
            CUBIC,
            SMOOTH_QUAD,
            SMOOTH_CUBIC,
        ]);
        let reflected = (2 * self.current.0 - self.control.0, 2 * self.current.1 - self.control.1);
        let (a, b, c) = (self.point(random), self.point(random), self.point(random));
        match kind {
            CLOSE => {
                let byte = CLOSE | u8::from(random.once_in(3));
                self.append(byte, &[]);
                self.current = self.start;
                self.control = self.start;
            }
            MOVE => {
                self.points(random, MOVE, &[a], a);
                self.start = a;
            }
            LINE => self.points(random, LINE, &[a], a),
            HORIZONTAL => {
                let relative = random.once_in(2) && fits(a.0 - self.current.0);
                let x = if relative { a.0 - self.current.0 } else { a.0 };
                self.append(HORIZONTAL | u8::from(relative), &[x]);
                self.current.0 = a.0;
                self.control = self.current;
            }
            VERTICAL => {
                let relative = random.once_in(2) && fits(a.1 - self.current.1);
                let y = if relative { a.1 - self.current.1 } else { a.1 };
                self.append(VERTICAL | u8::from(relative), &[y]);
                self.current.1 = a.1;
                self.control = self.current;
            }
            QUAD => self.points(random, QUAD, &[a, b], a),
            CUBIC => self.points(random, CUBIC, &[a, b, c], b),
            // A reflected control out of range would be refused.
            _ if !fits(reflected.0) || !fits(reflected.1) => {}
            SMOOTH_QUAD => self.points(random, SMOOTH_QUAD, &[a], reflected),
            _ => self.points(random, SMOOTH_CUBIC, &[a, b], a),
        }
    }

    /// A segment through these points to the last of them, which keeps `control`.
    fn points(&mut self, random: &mut Random, kind: u8, points: &[Point], control: Point) {
        let step = |p: &Point| [p.0 - self.current.0, p.1 - self.current.1];
        let steps: Vec<i32> = points.iter().flat_map(step).collect();
        if random.once_in(2) && steps.iter().all(|&v| fits(v)) {
            self.append(kind | RELATIVE, &steps);
        } else {
            let absolute: Vec<i32> = points.iter().flat_map(|p| [p.0, p.1]).collect();
            self.append(kind, &absolute);
        }
        self.current = points[points.len() - 1];
        self.control = control;
    }

    fn append(&mut self, byte: u8, coordinates: &[i32]) {
        let coordinates: Vec<i16> = coordinates.iter().map(|&v| v as i16).collect();
        self.path = std::mem::take(&mut self.path).segment(byte, &coordinates);
    }

    /// Mostly anywhere in reach, at times a point that was there before or an end of the range.
    fn point(&self, random: &mut Random) -> Point {
        match random.range(0, 19) {
            0 => self.current,
            1 => self.start,
            2 => (self.current.0, self.coordinate(random)),
            _ => (self.coordinate(random), self.coordinate(random)),
        }
    }

    fn coordinate(&self, random: &mut Random) -> i32 {
        let v = match random.range(0, 15) {
            0 => random.pick(&[-self.reach, self.reach, 0, 1, -1]),
            1..=4 => random.range(-self.reach, self.reach),
            _ => random.range(-self.reach / 8, self.reach),
        };
        v.clamp(-32_768, 32_767)
    }
}

fn fits(v: i32) -> bool {
    (-32_768..=32_767).contains(&v)
}
