//! The codes of the library, as an enum with words, and answers as results.

use std::fmt;

use crate::{Answer, Comparison, Composited, Pixel};

/// The code of a call. The library answers no other, which is proved.
#[derive(Clone, Copy, Debug, PartialEq, Eq, Hash)]
pub enum Code {
    /// The call was accepted.
    Accepted,
    /// The scene's length is below 512, not a multiple of 512, or not the one that its number of draws asks for.
    BadLength,
    /// The check of a block is wrong: a block is spoiled or out of its place.
    BadChecksum,
    /// A field, float, segment or coordinate breaks a rule, a matrix is flat, a draw asks for a mask where none is lent, or
    /// the two scenes of a redraw differ in width or height.
    IllegalArgument,
    /// A segment is an arc.
    UnsupportedPathFormat,
    /// The surface, or the mask that is lent, does not have the scene's size.
    UnsupportedImageFormat,
    /// The scratch, or another place to write to, is too short.
    OutOfMemory,
}

impl Code {
    /// All of them.
    pub const ALL: [Code; 7] = [
        Code::Accepted,
        Code::BadLength,
        Code::BadChecksum,
        Code::IllegalArgument,
        Code::UnsupportedPathFormat,
        Code::UnsupportedImageFormat,
        Code::OutOfMemory,
    ];

    /// The number of the code in `include/wayramesh.h`.
    pub fn number(self) -> u32 {
        match self {
            Code::Accepted => 0,
            Code::BadLength => 0xB002,
            Code::BadChecksum => 0xB001,
            Code::IllegalArgument => 0x1001,
            Code::UnsupportedPathFormat => 0x1005,
            Code::UnsupportedImageFormat => 0x1004,
            Code::OutOfMemory => 0x1002,
        }
    }

    /// The code with this number, if there is one.
    pub fn from_number(number: u32) -> Option<Code> {
        Code::ALL.into_iter().find(|code| code.number() == number)
    }

    /// The code of an answer.
    pub(crate) fn answered(number: u32) -> Code {
        Code::from_number(number).unwrap_or_else(|| unreachable!("the library answers no code {number:#x}"))
    }
}

impl fmt::Display for Code {
    fn fmt(&self, f: &mut fmt::Formatter) -> fmt::Result {
        f.write_str(match self {
            Code::Accepted => "accepted",
            Code::BadLength => "the file has a wrong length",
            Code::BadChecksum => "a block's check is wrong",
            Code::IllegalArgument => "a rule is broken, or the sizes of two scenes differ",
            Code::UnsupportedPathFormat => "a segment is an arc",
            Code::UnsupportedImageFormat => "the surface or the mask does not have the scene's size",
            Code::OutOfMemory => "a lent place is too short",
        })
    }
}

impl std::error::Error for Code {}

/// A call that was refused: nothing was drawn.
#[derive(Clone, Copy, Debug, PartialEq, Eq)]
pub struct Refusal {
    /// Why; never [`Code::Accepted`].
    pub code: Code,
    /// The draw that broke a rule, from 0; none if what was wrong is in no draw.
    pub draw: Option<u32>,
    /// Whether it is the new scene of a redraw that was wrong.
    pub in_new_scene: bool,
}

impl fmt::Display for Refusal {
    fn fmt(&self, f: &mut fmt::Formatter) -> fmt::Result {
        write!(f, "refused {:04x}", self.code.number())?;
        match (self.draw, self.in_new_scene) {
            (Some(draw), false) => write!(f, " in draw {draw}")?,
            (Some(draw), true) => write!(f, " in draw {draw} of the new scene")?,
            (None, true) => f.write_str(" in the new scene")?,
            (None, false) => {}
        }
        write!(f, ": {}", self.code)
    }
}

impl std::error::Error for Refusal {}

/// Pixels of a surface: columns `x` to `x + width - 1` and rows `y` to `y + height - 1`, row 0 the lowest. One without width
/// and height has none.
#[derive(Clone, Copy, Debug, Default, PartialEq, Eq)]
pub struct Area {
    /// The left column.
    pub x: u32,
    /// The lowest row.
    pub y: u32,
    /// The number of columns.
    pub width: u32,
    /// The number of rows.
    pub height: u32,
}

impl Area {
    /// Whether there is no pixel in it.
    pub fn is_empty(&self) -> bool {
        self.width == 0 || self.height == 0
    }
}

impl Answer {
    /// The area that was drawn, or why nothing was.
    pub fn result(self) -> Result<Area, Refusal> {
        match Code::answered(self.code) {
            Code::Accepted => Ok(Area { x: self.x, y: self.y, width: self.width, height: self.height }),
            code => {
                let draw = (self.draw != crate::NO_DRAW).then_some(self.draw);
                Err(Refusal { code, draw, in_new_scene: self.scene == 1 })
            }
        }
    }
}

impl Comparison {
    /// The comparison, if there was one, or the code of the refusal.
    pub fn result(self) -> Result<Comparison, Code> {
        match Code::answered(self.code) {
            Code::Accepted => Ok(self),
            code => Err(code),
        }
    }
}

impl Composited {
    /// What is to be stored, or the code of the refusal.
    pub fn result(self) -> Result<Pixel, Code> {
        match Code::answered(self.code) {
            Code::Accepted => Ok(self.pixel),
            code => Err(code),
        }
    }
}
