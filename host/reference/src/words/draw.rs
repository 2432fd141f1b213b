//! The rules of a draw in words.

use super::{byte, names, Broken};
use crate::file::{draw, Edition};
use crate::number::{f32_at, i16_at, i32_at, scaled, u16_at};
use crate::path::{self, Matrix, SegmentFault};
use crate::radial::RadialGradient;

/// A float and its four bytes in the file's order.
fn float(value: f32) -> String {
    let [a, b, c, d] = value.to_le_bytes();
    format!("{value} (bytes {a:02x} {b:02x} {c:02x} {d:02x})")
}

fn broken(field: impl Into<String>, value: impl Into<String>, rule: impl Into<String>) -> Option<Broken> {
    Some(Broken::new(field, value, rule))
}

const MATRIX: [&str; 6] = ["sx", "shy", "shx", "sy", "tx", "ty"];
const CHANNELS: [&str; 4] = ["R", "G", "B", "A"];
const LINEAR: [&str; 4] = ["x0", "y0", "x1", "y1"];
const SCISSOR: [&str; 4] = ["x", "y", "width", "height"];
const RADIAL: [&str; 5] = ["cx", "cy", "fx", "fy", "r"];
const STOP: [&str; 5] = ["offset", "R", "G", "B", "A"];

const MOST_SCALE: f32 = 256.0;
const MOST_SHIFT: f32 = 32_768.0;
const MOST_LINEAR: f32 = 4_096.0;
const MOST_RADIAL: f32 = 1_024.0;

const LAST_OF_STOPS: usize = draw::SEGMENTS - 1;
const LAST_OF_SEGMENTS: usize = draw::SEGMENTS_END - 1;

/// A draw's joined payloads, and what else its rules depend on.
pub struct DrawRules {
    pub bytes: Vec<u8>,
    pub edition: Edition,
    pub mask_lent: bool,
}

impl DrawRules {
    /// The rule that is broken at a place.
    pub fn broken_at(&self, place: usize) -> Option<Broken> {
        match place {
            draw::FLAGS => self.flags(),
            draw::BLEND => self.named("the blend mode", place, 0x2000, &names::BLENDS),
            draw::PAINT => self.named("the paint type", place, 0x1B00, &names::PAINTS),
            draw::SPREAD => self.named("the spread", place, 0x1C00, &names::SPREADS),
            // A word is met at its first byte.
            1 | 3 | 5 | 7 => None,
            draw::SEGMENT_COUNT => self.count("segments", place, draw::MAX_SEGMENTS),
            draw::SCISSOR_COUNT => self.count("scissors", place, draw::MAX_SCISSORS),
            draw::STOP_COUNT => {
                let (what, most) = if self.is_radial() {
                    ("stops of a radial draw", draw::MAX_RADIAL_STOPS)
                } else {
                    ("stops", draw::MAX_STOPS)
                };
                self.count(what, place, most)
            }
            draw::ZERO => self.unused(place, "byte 11 of the draw", "byte 11 of a draw is zero"),
            draw::MATRIX..=35 => self.matrix(place).or_else(|| self.flat(place)),
            draw::COLOR..=51 => self.not_a_number("the colour's", place, draw::COLOR, &CHANNELS),
            draw::LINEAR..=67 => self.limited("the linear gradient's", place, draw::LINEAR, &LINEAR, MOST_LINEAR),
            draw::SCISSORS..=131 => self.unused_scissor(place),
            draw::STOPS..=LAST_OF_STOPS => self.stops(place),
            draw::SEGMENTS..=LAST_OF_SEGMENTS => self.segment(place - draw::SEGMENTS),
            _ if place < self.edition.coordinates() => {
                let scales = place < draw::TRANSFORM + 16;
                let first = if scales { draw::TRANSFORM } else { draw::TRANSFORM + 16 };
                let of =
                    if scales { "the colour transformation's scale of" } else { "the colour transformation's bias of" };
                self.not_a_number(of, place, first, &CHANNELS)
            }
            _ => self.unused_coordinate(place),
        }
    }

    fn is_radial(&self) -> bool {
        u16_at(&self.bytes, draw::PAINT) == 0x1B02
    }

    fn counted(&self, place: usize) -> usize {
        self.bytes[place].into()
    }

    fn flags(&self) -> Option<Broken> {
        let flags = u16_at(&self.bytes, draw::FLAGS);
        let value = format!("0x{flags:04x}");
        if flags >= 32 {
            return broken("the flag word", value, "flag bits 5 to 15 are 0");
        }
        if flags & 16 != 0 && self.edition == Edition::Old {
            return broken("the flag word", value, "flag bit 4, the colour transformation, is for edition 1");
        }
        if flags & 8 != 0 && !self.mask_lent {
            return broken("the flag word", value, "flag bit 3 asks for a mask, and none is lent");
        }
        None
    }

    /// A number that has a name.
    fn named(&self, field: &str, place: usize, first: u16, names: &[&'static str]) -> Option<Broken> {
        let number = u16_at(&self.bytes, place);
        if names::of(names, first, number).is_some() {
            return None;
        }
        let known: Vec<String> = (first..).zip(names).map(|(number, name)| format!("0x{number:04x} {name}")).collect();
        broken(field, format!("0x{number:04x}"), format!("{field} is one of {}", known.join(", ")))
    }

    fn count(&self, what: &str, place: usize, most: usize) -> Option<Broken> {
        let count = self.counted(place);
        if count <= most {
            return None;
        }
        broken(format!("the number of {what}"), count.to_string(), format!("there are at most {most} {what}"))
    }

    /// A byte that must be zero.
    fn unused(&self, place: usize, field: impl Into<String>, rule: impl Into<String>) -> Option<Broken> {
        match self.bytes[place] {
            0 => None,
            value => broken(field, byte(value), rule),
        }
    }

    /// A float among those from `first` on, if it breaks a rule.
    fn float(
        &self,
        whose: &str,
        place: usize,
        first: usize,
        names: &[&str],
        allowed: impl Fn(f32) -> bool,
        rule: &str,
    ) -> Option<Broken> {
        let name = names.get((place - first) / 4).filter(|_| (place - first) % 4 == 0)?;
        let value = f32_at(&self.bytes, place);
        if allowed(value) {
            return None;
        }
        broken(format!("{whose} {name}"), float(value), rule)
    }

    fn limited(&self, whose: &str, place: usize, first: usize, names: &[&str], most: f32) -> Option<Broken> {
        let rule = format!("{whose} {} are finite and at most {most} in size", names.join(", "));
        self.float(whose, place, first, names, |value| value.abs() <= most, &rule)
    }

    fn not_a_number(&self, whose: &str, place: usize, first: usize, names: &[&str]) -> Option<Broken> {
        let rule = format!("{whose} {} are numbers: a NaN is none", names.join(", "));
        self.float(whose, place, first, names, |value| !value.is_nan(), &rule)
    }

    fn matrix(&self, place: usize) -> Option<Broken> {
        let (scales, shifts) = MATRIX.split_at(4);
        if place < draw::MATRIX + 16 {
            self.limited("the matrix's", place, draw::MATRIX, scales, MOST_SCALE)
        } else {
            self.limited("the matrix's", place, draw::MATRIX + 16, shifts, MOST_SHIFT)
        }
    }

    /// The matrix, if each of its entries is within its limit.
    fn entries(&self) -> Option<[f32; 6]> {
        let entries: [f32; 6] = std::array::from_fn(|i| f32_at(&self.bytes, draw::MATRIX + 4 * i));
        let (scales, shifts) = entries.split_at(4);
        let within = |entries: &[f32], most: f32| entries.iter().all(|entry| entry.abs() <= most);
        Some(entries).filter(|_| within(scales, MOST_SCALE) && within(shifts, MOST_SHIFT))
    }

    /// A flat matrix, which is met at its sx.
    fn flat(&self, place: usize) -> Option<Broken> {
        let entries = self.entries()?;
        let segments = self.counted(draw::SEGMENT_COUNT);
        if place != draw::MATRIX || segments == 0 || !Matrix::new(entries).is_flat() {
            return None;
        }
        let [sx, shy, shx, sy, ..] = entries.map(|entry| scaled(entry, 16));
        broken(
            "the matrix",
            format!("sx {sx}, shy {shy}, shx {shx}, sy {sy} as whole numbers, in 1/65,536"),
            "a draw with segments has no flat matrix: sx·sy − shx·shy is not 0",
        )
    }

    fn unused_scissor(&self, place: usize) -> Option<Broken> {
        let count = self.counted(draw::SCISSOR_COUNT);
        let at = place - draw::SCISSORS;
        let (scissor, name) = (at / draw::SCISSOR_BYTES, SCISSOR[at % draw::SCISSOR_BYTES / 4]);
        if scissor < count {
            return None;
        }
        let whole = i32_at(&self.bytes, place / 4 * 4);
        self.unused(
            place,
            format!("a byte of the unused scissor {scissor}'s {name} ({whole})"),
            format!("behind the {count} scissors that are used every byte is zero"),
        )
    }

    /// The values of a radial gradient, a bad focal point, a NaN in a stop that is used, a byte in one that is not.
    fn stops(&self, place: usize) -> Option<Broken> {
        let first = if self.is_radial() { draw::STOPS + draw::STOP_BYTES } else { draw::STOPS };
        if place < first {
            let limited = self.limited("the radial gradient's", place, draw::RADIAL, &RADIAL, MOST_RADIAL);
            return limited.or_else(|| self.focal_point(place));
        }
        let count = self.counted(draw::STOP_COUNT);
        let stop = (place - first) / draw::STOP_BYTES;
        if stop < count {
            return self.not_a_number(&format!("stop {stop}'s"), place, first + draw::STOP_BYTES * stop, &STOP);
        }
        let name = STOP[(place - first) % draw::STOP_BYTES / 4];
        self.unused(
            place,
            format!("a byte of the unused stop {stop}'s {name}"),
            format!("behind the {count} stops that are used every byte is zero"),
        )
    }

    /// A bad focal point, which is met at cx.
    fn focal_point(&self, place: usize) -> Option<Broken> {
        let values: [f32; 5] = std::array::from_fn(|i| f32_at(&self.bytes, draw::RADIAL + 4 * i));
        let within = values.iter().all(|value| value.abs() <= MOST_RADIAL);
        if place != draw::RADIAL || !within || RadialGradient::new(values).focal_point_allowed() {
            return None;
        }
        let [cx, cy, fx, fy, r] = values.map(|value| scaled(value, 4));
        broken(
            "the radial gradient",
            format!("centre ({cx}, {cy}), focal point ({fx}, {fy}), r {r} as whole numbers, in 1/16 pixel"),
            "where r is above 0, the focal point lies inside the circle, not on it and not outside",
        )
    }

    fn segment(&self, number: usize) -> Option<Broken> {
        let count = self.counted(draw::SEGMENT_COUNT);
        let byte = self.bytes[draw::SEGMENTS + number];
        if number >= count {
            let rule = format!("behind the {count} segments that are used every byte is zero");
            return self.unused(draw::SEGMENTS + number, format!("the unused segment {number}"), rule);
        }
        let segments = &self.bytes[draw::SEGMENTS..][..count];
        let first = self.edition.coordinates();
        let most = self.edition.max_coordinates();
        let coordinates: Vec<i16> = (0..most).map(|i| i16_at(&self.bytes, first + 2 * i)).collect();
        let fault = match path::walk(segments, &coordinates, &Matrix::new(self.entries()?)) {
            Err((fault, met)) if met == number => fault,
            _ => return None,
        };
        let command = names::segment(byte).map_or(format!("byte {byte}"), |name| format!("byte {byte}, {name}"));
        let (value, rule) = match fault {
            SegmentFault::Arc => (command, "arcs, bytes 18 to 25, are not drawn".to_string()),
            SegmentFault::Unknown => {
                (command, "a segment byte is 0 to 17; 18 to 25 are arcs, all others nothing".to_string())
            }
            SegmentFault::TooFewCoordinates => {
                (command, format!("a path of this edition has {most} coordinates, and this segment needs one more"))
            }
            SegmentFault::PointOutOfRange(at) => {
                let value = format!("{command}, with the point ({}, {})", at.x, at.y);
                (value, "every point of a path, a reflected one too, stays in -32,768 to 32,767".to_string())
            }
            SegmentFault::PointTooFar(at) => {
                let value = format!("{command}, with a point at ({}, {}) on the surface, in 1/256 pixel", at.x, at.y);
                (value, "on the surface every point is at most 8,388,608 in size, in 1/256 pixel".to_string())
            }
        };
        broken(format!("segment {number}"), value, rule)
    }

    fn unused_coordinate(&self, place: usize) -> Option<Broken> {
        let number = (place - self.edition.coordinates()) / 2;
        let whole = i16_at(&self.bytes, place / 2 * 2);
        self.unused(
            place,
            format!("a byte of the unused coordinate {number} ({whole})"),
            "behind the last coordinate that the path takes every byte is zero",
        )
    }
}
