//! Affine maps of the plane, and the attribute `transform`.

use crate::scanner::Scanner;

pub type Point = (f64, f64);

/// (x, y) becomes (a·x + c·y + e, b·x + d·y + f), as in SVG's matrix(a b c d e f).
#[derive(Clone, Copy, Debug, PartialEq)]
pub struct Affine {
    pub a: f64,
    pub b: f64,
    pub c: f64,
    pub d: f64,
    pub e: f64,
    pub f: f64,
}

impl Affine {
    pub const IDENTITY: Affine = Affine { a: 1.0, b: 0.0, c: 0.0, d: 1.0, e: 0.0, f: 0.0 };

    pub fn new([a, b, c, d, e, f]: [f64; 6]) -> Affine {
        Affine { a, b, c, d, e, f }
    }

    pub fn translation(x: f64, y: f64) -> Affine {
        Affine { e: x, f: y, ..Affine::IDENTITY }
    }

    pub fn scale(x: f64, y: f64) -> Affine {
        Affine { a: x, d: y, ..Affine::IDENTITY }
    }

    fn rotation(degrees: f64) -> Affine {
        let (sin, cos) = sin_cos(degrees);
        Affine::new([cos, sin, -sin, cos, 0.0, 0.0])
    }

    /// First the other map, then this one.
    pub fn after(&self, first: &Affine) -> Affine {
        let (e, f) = self.apply((first.e, first.f));
        let (a, b) = self.direction((first.a, first.b));
        let (c, d) = self.direction((first.c, first.d));
        Affine { a, b, c, d, e, f }
    }

    pub fn apply(&self, (x, y): Point) -> Point {
        (self.a * x + self.c * y + self.e, self.b * x + self.d * y + self.f)
    }

    /// A difference of two points.
    pub fn direction(&self, (x, y): Point) -> Point {
        (self.a * x + self.c * y, self.b * x + self.d * y)
    }

    pub fn determinant(&self) -> f64 {
        self.a * self.d - self.b * self.c
    }

    /// By how much all lengths are multiplied, if it is the same for all: a turn, a scale, a mirror.
    pub fn similarity(&self) -> Option<f64> {
        let (first, second) = (self.a.hypot(self.b), self.c.hypot(self.d));
        let slant = self.a * self.c + self.b * self.d;
        let near = |x: f64| x.abs() <= 1e-6;
        (near((first - second) / first.max(second)) && near(slant / (first * second))).then_some(first)
    }

    /// Whether axes stay axes.
    pub fn is_axis_aligned(&self) -> bool {
        let near = |x: f64, y: f64| x.abs() <= 1e-9 * y.abs().max(1e-300);
        (near(self.b, self.a) && near(self.c, self.d)) || (near(self.a, self.b) && near(self.d, self.c))
    }
}

/// Exact at quarter turns, where the axes have to stay axes.
fn sin_cos(degrees: f64) -> (f64, f64) {
    match degrees.rem_euclid(360.0) {
        turn if turn == 0.0 => (0.0, 1.0),
        turn if turn == 90.0 => (1.0, 0.0),
        turn if turn == 180.0 => (0.0, -1.0),
        turn if turn == 270.0 => (-1.0, 0.0),
        turn => turn.to_radians().sin_cos(),
    }
}

/// The map of a value of the attribute `transform`, or the part of it that cannot be read.
pub fn transform(text: &str) -> Result<Affine, String> {
    let mut scanner = Scanner::new(text);
    let mut map = Affine::IDENTITY;
    while !scanner.is_at_end() {
        let part = scanner.rest().to_string();
        let step = step(&mut scanner).ok_or_else(|| format!("transform '{}' cannot be read", part.trim_end()))?;
        map = map.after(&step);
        scanner.skip_comma();
    }
    Ok(map)
}

/// One function with its numbers.
fn step(scanner: &mut Scanner) -> Option<Affine> {
    let name = scanner.until('(')?.trim_end();
    let numbers = scanner.numbers();
    scanner.take(')').then_some(())?;
    match (name, &numbers[..]) {
        ("matrix", &[a, b, c, d, e, f]) => Some(Affine::new([a, b, c, d, e, f])),
        ("translate", &[x]) => Some(Affine::translation(x, 0.0)),
        ("translate", &[x, y]) => Some(Affine::translation(x, y)),
        ("scale", &[both]) => Some(Affine::scale(both, both)),
        ("scale", &[x, y]) => Some(Affine::scale(x, y)),
        ("rotate", &[degrees]) => Some(Affine::rotation(degrees)),
        ("rotate", &[degrees, x, y]) => {
            let about = Affine::translation(x, y).after(&Affine::rotation(degrees));
            Some(about.after(&Affine::translation(-x, -y)))
        }
        ("skewX", &[degrees]) => Some(Affine { c: degrees.to_radians().tan(), ..Affine::IDENTITY }),
        ("skewY", &[degrees]) => Some(Affine { b: degrees.to_radians().tan(), ..Affine::IDENTITY }),
        _ => None,
    }
}

#[cfg(test)]
mod tests {
    use super::*;

    #[test]
    fn parts_go_from_right_to_left() {
        let map = transform("translate(10, 20) scale(2)rotate(90 1 1)").expect("a map");
        assert_eq!(map.apply((2.0, 1.0)), (12.0, 24.0));
        assert_eq!(map.similarity(), Some(2.0));
        assert!(map.is_axis_aligned());
        assert_eq!(transform("matrix(1 2 3 4 5 6)").expect("a map").apply((1.0, 1.0)), (9.0, 12.0));
        assert_eq!(transform(" "), Ok(Affine::IDENTITY));
        for text in ["skewX(30)", "scale(1 2)"] {
            assert_eq!(transform(text).expect("a map").similarity(), None, "{text}");
        }
        assert!(!transform("rotate(45)").expect("a map").is_axis_aligned());
    }

    #[test]
    fn what_cannot_be_read_is_named() {
        for text in ["scale", "scale(", "scale(1 2 3)", "turn(1)", "matrix(1 2 3 4 5)", "scale(1);", "scale(1px)"] {
            let part = if text == "scale(1);" { ";" } else { text };
            assert_eq!(transform(text), Err(format!("transform '{part}' cannot be read")), "{text}");
        }
    }
}
