//! The attribute `d` of a path.

use crate::affine::Point;
use crate::outline::{Outline, Segment};
use crate::scanner::Scanner;

/// The outline of path data, or what of it cannot be held or read.
pub fn outline(data: &str) -> Result<Outline, String> {
    let mut pen = Pen::default();
    let mut scanner = Scanner::new(data);
    let mut command = None;
    while !scanner.is_at_end() {
        let number = pen.outline.segments.len();
        let letter = match scanner.command() {
            Some(letter) => letter,
            None => repeated(command).ok_or_else(|| unreadable(&scanner, number))?,
        };
        if number == 0 && !"Mm".contains(letter) {
            return Err("path data does not begin with M or m".to_string());
        }
        if "Aa".contains(letter) {
            return Err(format!("arc, segment {number} of the path, cannot be held: make curves of it in the editor"));
        }
        pen.segment(letter, &mut scanner).ok_or_else(|| unreadable(&scanner, number))?;
        command = Some(letter);
    }
    Ok(pen.outline)
}

/// The letter that numbers without one stand for.
fn repeated(command: Option<char>) -> Option<char> {
    match command? {
        'M' => Some('L'),
        'm' => Some('l'),
        'Z' | 'z' => None,
        other => Some(other),
    }
}

fn unreadable(scanner: &Scanner, number: usize) -> String {
    let part: String = scanner.rest().chars().take(20).collect();
    format!("path data cannot be read in segment {number}, at '{part}'")
}

/// The next two numbers as a point, from a base.
fn point(base: Point, scanner: &mut Scanner) -> Option<Point> {
    Some((base.0 + scanner.number()?, base.1 + scanner.number()?))
}

/// The pen that walks over path data.
#[derive(Default)]
struct Pen {
    outline: Outline,
    start: Point,
    current: Point,
    /// The last control of a quadratic and of a cubic curve, if the last segment was one.
    quad_control: Option<Point>,
    cubic_control: Option<Point>,
}

impl Pen {
    /// A segment by its letter; none if its numbers cannot be read.
    fn segment(&mut self, letter: char, scanner: &mut Scanner) -> Option<()> {
        let base = if letter.is_ascii_lowercase() { self.current } else { (0.0, 0.0) };
        match letter.to_ascii_uppercase() {
            'M' => {
                self.start = point(base, scanner)?;
                self.draw(Segment::Move(self.start), self.start);
            }
            'L' => self.line(point(base, scanner)?),
            'H' => self.line((base.0 + scanner.number()?, self.current.1)),
            'V' => self.line((self.current.0, base.1 + scanner.number()?)),
            'Q' => self.quad(point(base, scanner)?, point(base, scanner)?),
            'T' => self.quad(self.reflected(self.quad_control), point(base, scanner)?),
            'C' => self.cubic(point(base, scanner)?, point(base, scanner)?, point(base, scanner)?),
            'S' => self.cubic(self.reflected(self.cubic_control), point(base, scanner)?, point(base, scanner)?),
            'Z' => self.draw(Segment::Close, self.start),
            _ => return None,
        }
        Some(())
    }

    fn line(&mut self, to: Point) {
        self.draw(Segment::Line(to), to);
    }

    fn draw(&mut self, segment: Segment, to: Point) {
        self.outline.segments.push(segment);
        self.current = to;
        self.quad_control = None;
        self.cubic_control = None;
    }

    fn quad(&mut self, control: Point, to: Point) {
        self.draw(Segment::Quad(control, to), to);
        self.quad_control = Some(control);
    }

    fn cubic(&mut self, first: Point, second: Point, to: Point) {
        self.draw(Segment::Cubic(first, second, to), to);
        self.cubic_control = Some(second);
    }

    /// The first control of a smooth curve: the last one's mirrored, if that was of the same kind.
    fn reflected(&self, control: Option<Point>) -> Point {
        let (x, y) = self.current;
        control.map_or((x, y), |control| (2.0 * x - control.0, 2.0 * y - control.1))
    }
}

#[cfg(test)]
mod tests {
    use super::Segment::{Close, Cubic, Line, Move, Quad};
    use super::*;

    #[test]
    fn every_letter() {
        let data = "m1 2 3,0H9h-1V5v1z L1 1q1 0 2 2t1 0T8 8c0 1 1 1 2 0s1-1 2 0S0 0 1 1M0 0 1 0";
        let expected = [
            Move((1.0, 2.0)),
            Line((4.0, 2.0)),
            Line((9.0, 2.0)),
            Line((8.0, 2.0)),
            Line((8.0, 5.0)),
            Line((8.0, 6.0)),
            Close,
            Line((1.0, 1.0)),
            Quad((2.0, 1.0), (3.0, 3.0)),
            Quad((4.0, 5.0), (4.0, 3.0)),
            Quad((4.0, 1.0), (8.0, 8.0)),
            Cubic((8.0, 9.0), (9.0, 9.0), (10.0, 8.0)),
            Cubic((11.0, 7.0), (11.0, 7.0), (12.0, 8.0)),
            Cubic((13.0, 9.0), (0.0, 0.0), (1.0, 1.0)),
            Move((0.0, 0.0)),
            Line((1.0, 0.0)),
        ];
        assert_eq!(outline(data).expect("an outline").segments, expected);
    }

    /// SVG mirrors a control of its own kind of curve only; the format mirrors any.
    #[test]
    fn a_smooth_curve_behind_another_kind() {
        let segments = outline("M0 0Q1 1 2 0S3 3 4 0").expect("an outline").segments;
        assert_eq!(segments[2], Cubic((2.0, 0.0), (3.0, 3.0), (4.0, 0.0)));
        let segments = outline("M0 0C1 1 1 1 2 0T4 0").expect("an outline").segments;
        assert_eq!(segments[2], Quad((2.0, 0.0), (4.0, 0.0)));
    }

    #[test]
    fn what_cannot_be_read_or_held() {
        let cases = [
            ("L1 1", "path data does not begin with M or m"),
            ("1 1", "path data cannot be read in segment 0, at '1 1'"),
            ("M1", "path data cannot be read in segment 0, at ''"),
            ("M1 1L2 x", "path data cannot be read in segment 1, at 'x'"),
            ("M1 1z5", "path data cannot be read in segment 2, at '5'"),
            ("M1 1R5", "path data cannot be read in segment 1, at '5'"),
            ("M1 1 L1 2 a1 1 0 0 1 2 2", "arc, segment 2 of the path, cannot be held: make curves of it in the editor"),
        ];
        for (data, message) in cases {
            assert_eq!(outline(data), Err(message.to_string()), "{data}");
        }
        assert_eq!(outline("  "), Ok(Outline::default()));
    }
}
