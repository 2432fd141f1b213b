//! The radial gradient: a circle, a focal point inside it, and t from 0 at the focal point to 1 on the circle.

use crate::number::scaled;
use crate::paint::ONE;

/// The log2 of the units in a pixel.
const LOG2_UNITS: i32 = 4;
const UNITS: i64 = 1 << LOG2_UNITS;

/// Centre, focal point and radius in 1/16 pixel.
#[derive(Debug)]
pub struct RadialGradient {
    cx: i64,
    cy: i64,
    fx: i64,
    fy: i64,
    r: i64,
}

impl RadialGradient {
    /// From cx, cy, fx, fy, r.
    pub fn new(values: [f32; 5]) -> RadialGradient {
        let [cx, cy, fx, fy, r] = values.map(|v| scaled(v, LOG2_UNITS));
        RadialGradient { cx, cy, fx, fy, r }
    }

    /// A focal point on or outside the circle is refused; with a radius not above 0 there is no circle.
    pub fn focal_point_allowed(&self) -> bool {
        self.r <= 0 || self.inside() > 0
    }

    /// D, the square of the radius less that of the focal point's distance from the centre.
    fn inside(&self) -> i64 {
        let (fx, fy) = (self.fx - self.cx, self.fy - self.cy);
        self.r * self.r - (fx * fx + fy * fy)
    }

    /// t at the centre of a pixel.
    pub fn at(&self, x: i64, y: i64) -> i64 {
        if self.r <= 0 {
            return ONE;
        }
        let (dx, dy) = (UNITS * x + UNITS / 2 - self.fx, UNITS * y + UNITS / 2 - self.fy);
        let (fx, fy) = (self.fx - self.cx, self.fy - self.cy);
        let along = dx * fx + dy * fy;
        let across = i128::from(dx * fy - dy * fx);
        let under_root = i128::from(self.r * self.r) * i128::from(dx * dx + dy * dy) - across * across;
        let root = root_down(under_root);
        (ONE * (along + root)).div_euclid(self.inside())
    }
}

/// The greatest whole number whose square is at most n, bit by bit.
fn root_down(n: i128) -> i64 {
    (0..62).rev().fold(0, |root: i64, bit| {
        let next = root | 1 << bit;
        if i128::from(next) * i128::from(next) <= n {
            next
        } else {
            root
        }
    })
}

#[cfg(test)]
mod tests {
    use super::*;

    fn t(values: [f32; 5], x: i64, y: i64) -> i64 {
        RadialGradient::new(values).at(x, y)
    }

    #[test]
    fn from_the_centre_out() {
        // Half a pixel to the right of the centre, and on the circle.
        assert_eq!(t([4.0, 0.5, 4.0, 0.5, 4.0], 4, 0), 8_192);
        assert_eq!(t([4.5, 0.5, 4.5, 0.5, 4.0], 4, 0), 0);
        assert_eq!(t([4.5, 0.5, 4.5, 0.5, 4.0], 8, 0), 65_536);
        assert_eq!(t([4.5, 0.5, 4.5, 0.5, 4.0], 0, 0), 65_536);
        assert_eq!(t([4.5, 0.5, 4.5, 0.5, 4.0], 12, 0), 131_072);
    }

    #[test]
    fn from_a_focal_point_off_the_centre() {
        // The circle is 6 pixels away on the left of the focal point and 2 on its right.
        let values = [4.5, 0.5, 6.5, 0.5, 4.0];
        assert_eq!([0, 3, 6, 7, 8].map(|x| t(values, x, 0)), [65_536, 32_768, 0, 32_768, 65_536]);
        // Straight up it is the square root of 12 away: Q is 16 * 16 * 3,072, its root between 886 and 887.
        assert_eq!(t(values, 6, 1), 65_536 * 886 / 3_072);
    }

    #[test]
    fn the_root_is_rounded_down() {
        assert_eq!([0, 1, 3, 4, 8, 9].map(root_down), [0, 1, 1, 2, 2, 3]);
        // Q = 256 (64 + 64) = 32,768, whose root lies between 181 and 182.
        assert_eq!(t([1.0, 1.0, 1.0, 1.0, 1.0], 1, 1), 65_536 * 181 / 256);
    }

    #[test]
    fn a_radius_not_above_0() {
        for r in [0.0, -0.0, -1.0, -1_024.0, 0.03] {
            let gradient = RadialGradient::new([3.0, 3.0, 900.0, -900.0, r]);
            assert_eq!(gradient.at(0, 0), 65_536, "{r}");
            assert!(gradient.focal_point_allowed(), "{r}");
        }
    }

    #[test]
    fn the_focal_point_inside_on_and_outside() {
        let allowed = |fx, r| RadialGradient::new([0.0, 0.0, fx, 0.0, r]).focal_point_allowed();
        assert!(allowed(2.0 - 1.0 / 16.0, 2.0));
        assert!(!allowed(2.0, 2.0));
        assert!(!allowed(-2.0, 2.0));
        assert!(!allowed(3.0, 2.0));
        // Judged on the whole numbers: 31 in a circle of 32, and 32 in one of 32.
        assert!(allowed(31.4 / 16.0, 31.5 / 16.0));
        assert!(!allowed(31.5 / 16.0, 32.4 / 16.0));
    }

    /// The greatest numbers that the rules allow stay within 64 bits where they are held in 64.
    #[test]
    fn extremes() {
        for [cx, cy, fx, fy] in [[1_024.0; 4], [-1_024.0; 4], [-300.0, -300.0, 423.9, 423.9]] {
            for (x, y) in [(0, 0), (1_023, 0), (0, 1_023), (1_023, 1_023)] {
                assert!(t([cx, cy, fx, fy, 1_024.0], x, y) >= 0);
            }
        }
    }
}
