//! What is wrong with a scene in the making.

use std::fmt;

/// A fault, and the draw that it is in.
#[derive(Clone, Copy, Debug, PartialEq, Eq)]
pub struct Error {
    /// The number of the draw, from 0; none if the fault is in no draw.
    pub draw: Option<usize>,
    /// What is wrong.
    pub fault: Fault,
}

impl fmt::Display for Error {
    fn fmt(&self, f: &mut fmt::Formatter) -> fmt::Result {
        match self.draw {
            Some(draw) => write!(f, "draw {draw}: {}", self.fault),
            None => self.fault.fmt(f),
        }
    }
}

impl std::error::Error for Error {}

/// What may be wrong. What the builder in C can meet too has its number in `include/wayramesh_scene.h`.
#[derive(Clone, Copy, Debug, PartialEq, Eq)]
#[non_exhaustive]
pub enum Fault {
    /// Width or height is not 1 to 1,024.
    BadSize,
    /// The edition is neither 0 nor 1, or a draw is transformed in edition 0.
    BadEdition,
    /// More than 64 draws.
    TooManyDraws,
    /// A byte that is no segment, or another number of coordinates than the segments take.
    BadSegment,
    /// More than 128 segments.
    TooManySegments,
    /// More coordinates than the edition has: 566 in edition 0, 550 in edition 1.
    TooManyCoordinates,
    /// More than 4 scissors.
    TooManyScissors,
    /// More than 32 stops, or 31 in a radial draw.
    TooManyStops,
    /// A float that is NaN or beyond its limit.
    BadNumber,
    /// The focal point of a radial gradient lies on or outside its circle.
    BadFocus,
    /// A draw with segments whose matrix maps all points to a line.
    FlatMatrix,
    /// A point of a path, absolute and with reflected controls, is outside -32,768..32,767, or the matrix brings it further
    /// than 32,768 pixels from the surface's origin.
    BadPoint,
    /// A letter that the font does not have.
    NoLetter(char),
}

impl Fault {
    /// The number of the fault in `include/wayramesh_scene.h`; none if only the shapes and texts here can have it.
    pub fn code(self) -> Option<u32> {
        Some(match self {
            Fault::BadSize => 0xC002,
            Fault::BadEdition => 0xC003,
            Fault::TooManyDraws => 0xC004,
            Fault::BadSegment => 0xC009,
            Fault::TooManySegments => 0xC00A,
            Fault::TooManyCoordinates => 0xC00B,
            Fault::TooManyScissors => 0xC00C,
            Fault::TooManyStops => 0xC00D,
            Fault::BadNumber => 0xC00E,
            Fault::BadFocus => 0xC010,
            Fault::FlatMatrix => 0xC011,
            Fault::BadPoint => 0xC012,
            Fault::NoLetter(_) => return None,
        })
    }
}

impl fmt::Display for Fault {
    fn fmt(&self, f: &mut fmt::Formatter) -> fmt::Result {
        f.write_str(match self {
            Fault::BadSize => "width or height is not 1 to 1,024",
            Fault::BadEdition => "no such edition, or a transformation in edition 0",
            Fault::TooManyDraws => "more than 64 draws",
            Fault::BadSegment => "no such segment, or not its number of coordinates",
            Fault::TooManySegments => "more than 128 segments",
            Fault::TooManyCoordinates => "more than 566 coordinates, in edition 1 more than 550",
            Fault::TooManyScissors => "more than 4 scissors",
            Fault::TooManyStops => "more than 32 stops, in a radial draw more than 31",
            Fault::BadNumber => "a float is NaN or beyond its limit",
            Fault::BadFocus => "the focal point is not within the circle",
            Fault::FlatMatrix => "the matrix maps all points to a line",
            Fault::BadPoint => "a point is out of range",
            Fault::NoLetter(letter) => return write!(f, "the font has no {letter:?}"),
        })
    }
}
