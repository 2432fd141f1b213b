//! Paint: colours as bytes, the linear gradient, spreads and the ramp of stops.

use crate::number::scaled;
use crate::radial::RadialGradient;

/// Four bytes R, G, B, A.
pub type Pixel = [u8; 4];

/// One in 1/65,536, the unit of t and of the stops' offsets.
pub const ONE: i64 = 65_536;

#[derive(Debug)]
pub enum Paint {
    /// Premultiplied.
    Color(Pixel),
    Linear {
        gradient: LinearGradient,
        spread: Spread,
        ramp: Ramp,
    },
    Radial {
        gradient: RadialGradient,
        spread: Spread,
        ramp: Ramp,
    },
}

impl Paint {
    pub fn color(channels: [f32; 4]) -> Paint {
        Paint::Color(premultiplied(channels.map(channel_byte)))
    }

    /// The premultiplied bytes at a pixel.
    pub fn at(&self, x: i64, y: i64) -> Pixel {
        match self {
            Paint::Color(pixel) => *pixel,
            Paint::Linear { gradient, spread, ramp } => ramp.at(spread.map(gradient.at(x, y))),
            Paint::Radial { gradient, spread, ramp } => ramp.at(spread.map(gradient.at(x, y))),
        }
    }
}

/// A colour channel cut to 0..1, times 255.0, plus 0.5, each rounded once as f32, its fraction dropped.
pub fn channel_byte(v: f32) -> u8 {
    let cut = v.clamp(0.0, 1.0);
    let scaled: f32 = cut * 255.0;
    let raised: f32 = scaled + 0.5;
    raised as u8
}

/// The byte of channel c under alpha a.
pub fn premultiply(c: u8, a: u8) -> u8 {
    ((i64::from(c) * i64::from(a) + 127) / 255) as u8
}

pub fn premultiplied([r, g, b, a]: Pixel) -> Pixel {
    [premultiply(r, a), premultiply(g, a), premultiply(b, a), a]
}

/// The points of a linear gradient in 1/256 pixel.
#[derive(Debug)]
pub struct LinearGradient {
    x0: i64,
    y0: i64,
    dx: i64,
    dy: i64,
}

impl LinearGradient {
    /// From x0, y0, x1, y1.
    pub fn new(points: [f32; 4]) -> LinearGradient {
        let [x0, y0, x1, y1] = points.map(|v| scaled(v, 8));
        LinearGradient { x0, y0, dx: x1 - x0, dy: y1 - y0 }
    }

    /// t at the centre of a pixel.
    pub fn at(&self, x: i64, y: i64) -> i64 {
        let length_squared = self.dx * self.dx + self.dy * self.dy;
        if length_squared == 0 {
            return ONE;
        }
        let along = self.dx * (256 * x + 128 - self.x0) + self.dy * (256 * y + 128 - self.y0);
        (ONE * along).div_euclid(length_squared)
    }
}

#[derive(Clone, Copy, Debug, PartialEq, Eq)]
pub enum Spread {
    Pad,
    Repeat,
    Reflect,
}

impl Spread {
    pub fn from_number(number: u16) -> Option<Spread> {
        match number {
            0x1C00 => Some(Spread::Pad),
            0x1C01 => Some(Spread::Repeat),
            0x1C02 => Some(Spread::Reflect),
            _ => None,
        }
    }

    /// The t that is then read as in pad.
    pub fn map(self, t: i64) -> i64 {
        let fraction = t.rem_euclid(ONE);
        match self {
            Spread::Pad => t,
            Spread::Repeat => fraction,
            Spread::Reflect if t.div_euclid(ONE) % 2 == 0 => fraction,
            Spread::Reflect => ONE - fraction,
        }
    }
}

/// A stop as the file gives it.
#[derive(Clone, Copy, Debug)]
pub struct Stop {
    pub offset: f32,
    pub color: [f32; 4],
}

/// The final list of stops, from 0 to 65,536.
#[derive(Debug)]
pub struct Ramp {
    stops: Vec<(i64, Pixel)>,
    /// Whether the stops' colours are premultiplied, or else the interpolated colour is to be.
    premultiplied: bool,
}

impl Ramp {
    pub fn new(given: &[Stop], premultiply_stops: bool) -> Ramp {
        let falling = given.windows(2).any(|two| two[1].offset < two[0].offset);
        let mut stops: Vec<(i64, Pixel)> = given
            .iter()
            .filter(|stop| !falling && 0.0 <= stop.offset && stop.offset <= 1.0)
            .map(|stop| (scaled(stop.offset, 16), stop.color.map(channel_byte)))
            .collect();
        match (stops.first().copied(), stops.last().copied()) {
            (Some(first), Some(last)) => {
                if first.0 != 0 {
                    stops.insert(0, (0, first.1));
                }
                if last.0 != ONE {
                    stops.push((ONE, last.1));
                }
            }
            _ => stops = vec![(0, [0, 0, 0, 255]), (ONE, [255, 255, 255, 255])],
        }
        if premultiply_stops {
            for stop in &mut stops {
                stop.1 = premultiplied(stop.1);
            }
        }
        Ramp { stops, premultiplied: premultiply_stops }
    }

    /// The premultiplied colour at t, read as in pad.
    pub fn at(&self, t: i64) -> Pixel {
        let color = if t < 0 {
            self.stops[0].1
        } else if t >= ONE {
            self.stops[self.stops.len() - 1].1
        } else {
            self.between(t)
        };
        if self.premultiplied {
            color
        } else {
            premultiplied(color)
        }
    }

    /// The colour at t from 0 to 65,535: the last stop lies at 65,536, so a next offset is above t.
    fn between(&self, t: i64) -> Pixel {
        let next = (1..self.stops.len()).find(|&j| self.stops[j].0 > t).expect("the last offset is above t");
        let (xi, ci) = self.stops[next - 1];
        let (xj, cj) = self.stops[next];
        std::array::from_fn(|channel| {
            let (from, to) = (i64::from(ci[channel]), i64::from(cj[channel]));
            let width = xj - xi;
            ((from * (xj - t) + to * (t - xi) + width / 2) / width) as u8
        })
    }
}
