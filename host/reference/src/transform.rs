//! The colour transformation of document 001, section 13.1, in whole numbers: each channel has a scale and a bias of its own.

use crate::number::scaled;
use crate::paint::{premultiplied, Pixel};

const MAX_SCALE: f32 = 127.0;
const MAX_BIAS: f32 = 1.0;
/// The log2 of the units of scales and biases.
const LOG2_UNITS: i32 = 8;

/// Scales and biases in 1/256, for R, G, B and A.
#[derive(Clone, Copy, Debug, PartialEq, Eq)]
pub struct ColorTransform {
    scales: [i64; 4],
    biases: [i64; 4],
}

impl ColorTransform {
    /// From four scales and four biases, none of them NaN.
    pub fn new([sr, sg, sb, sa, br, bg, bb, ba]: [f32; 8]) -> ColorTransform {
        ColorTransform {
            scales: [sr, sg, sb, sa].map(|v| scaled(v.clamp(-MAX_SCALE, MAX_SCALE), LOG2_UNITS)),
            biases: [br, bg, bb, ba].map(|v| scaled(v.clamp(-MAX_BIAS, MAX_BIAS), LOG2_UNITS)),
        }
    }

    /// The premultiplied bytes of a paint, transformed.
    pub fn at(&self, [r, g, b, a]: Pixel) -> Pixel {
        let given = [straight(r, a), straight(g, a), straight(b, a), a.into()];
        premultiplied(std::array::from_fn(|channel| {
            let sum = given[channel] * self.scales[channel] + 255 * self.biases[channel] + 128;
            sum.div_euclid(256).clamp(0, 255) as u8
        }))
    }
}

/// A premultiplied channel c under alpha a, taken out of premultiplied form.
fn straight(c: u8, a: u8) -> i64 {
    let (c, a) = (i64::from(c), i64::from(a));
    if a == 0 {
        0
    } else {
        (510 * c + a) / (2 * a)
    }
}

#[cfg(test)]
mod tests {
    use super::*;

    const IDENTITY: [f32; 8] = [1.0, 1.0, 1.0, 1.0, 0.0, 0.0, 0.0, 0.0];

    fn with(values: &[(usize, f32)]) -> ColorTransform {
        let mut all = IDENTITY;
        for &(at, value) in values {
            all[at] = value;
        }
        ColorTransform::new(all)
    }

    /// Out of premultiplied form and back, every colour under every alpha is kept.
    #[test]
    fn the_identity_keeps_premultiplied_pixels() {
        let identity = ColorTransform::new(IDENTITY);
        for a in 0..=255 {
            for c in 0..=a {
                assert_eq!(identity.at([c, a - c, a, a]), [c, a - c, a, a]);
            }
        }
        // A channel above its alpha is cut.
        assert_eq!(identity.at([255, 0, 7, 6]), [6, 0, 6, 6]);
        assert_eq!(identity.at([9, 9, 9, 0]), [0; 4]);
    }

    #[test]
    fn each_channel_has_its_own_scale_and_bias() {
        let half = with(&[(0, 0.5)]);
        assert_eq!(half.at([200, 200, 200, 255]), [100, 200, 200, 255]);
        assert_eq!(with(&[(1, 0.5)]).at([200, 200, 200, 255]), [200, 100, 200, 255]);
        assert_eq!(with(&[(2, 0.5)]).at([200, 200, 200, 255]), [200, 200, 100, 255]);
        // Half the alpha halves what is stored of the colours, which stay as they are.
        assert_eq!(with(&[(3, 0.5)]).at([200, 100, 0, 255]), [100, 50, 0, 128]);
        for channel in 0..4 {
            let mut expected = [0; 4];
            expected[channel] = 128;
            expected[3] = 255;
            let black = with(&[(4 + channel, 0.5)]).at([0, 0, 0, 255]);
            assert_eq!(black, if channel == 3 { [0, 0, 0, 255] } else { expected });
        }
        // A bias of alpha shows colours that a transparent paint no longer has.
        assert_eq!(with(&[(3, 0.0), (7, 1.0), (4, 0.25)]).at([0; 4]), [64, 0, 0, 255]);
    }

    #[test]
    fn values_are_cut_and_rounded() {
        let values = ColorTransform::new([
            f32::INFINITY,
            127.5,
            f32::NEG_INFINITY,
            -0.0,
            2.0,
            -f32::MAX,
            1.0 / 512.0,
            -1.0 / 512.0,
        ]);
        assert_eq!(values.scales, [127 * 256, 127 * 256, -127 * 256, 0]);
        assert_eq!(values.biases, [256, -256, 1, 0]);
        assert_eq!(ColorTransform::new([1e-40; 8]).scales, [0; 4]);
        assert_eq!(ColorTransform::new([0.5 / 256.0; 8]).scales, [1; 4]);
        assert_eq!(ColorTransform::new([-1.5 / 256.0; 8]).biases, [-1; 4]);
    }

    /// Sums below 0 and above 255 are cut; a negative sum is divided downwards.
    #[test]
    fn channels_are_cut() {
        assert_eq!(with(&[(0, 127.0), (1, -127.0)]).at([1, 255, 0, 255]), [127, 0, 0, 255]);
        assert_eq!(with(&[(0, -1.0), (4, 1.0)]).at([55, 0, 0, 255]), [200, 0, 0, 255]);
        assert_eq!(with(&[(0, 3.0)]).at([100, 0, 0, 255]), [255, 0, 0, 255]);
        assert_eq!(with(&[(4, -1.0 / 256.0)]).at([0, 0, 0, 255]), [0, 0, 0, 255]);
        assert_eq!(with(&[(3, -1.0)]).at([10, 20, 30, 40]), [0; 4]);
    }
}
