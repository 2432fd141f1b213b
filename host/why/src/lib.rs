//! Why a pixel of a scene has its colour, in words: what each draw does there, or which rule a refused scene breaks, and
//! where.
//!
//! The lines, and a refusal's code, draw and offset, are the proved library's. The words around them, the names of fields and
//! the geometry that decided, are read from the file with the reference's help.
#![forbid(unsafe_code)]

pub mod fault;
pub mod story;
pub mod swatch;

use library::explain;
use library::Mask;

/// What is asked.
#[derive(Clone, Copy, Debug)]
pub struct Question<'a> {
    pub scene: &'a [u8],
    pub mask: Option<&'a [u8]>,
    /// Any numbers: those outside the picture are refused.
    pub x: i64,
    pub y: i64,
}

impl Question<'_> {
    fn lent(&self) -> Mask<'_> {
        self.mask.map_or(Mask::NONE, Mask::of)
    }

    /// The answer in words, under a name for the scene, and whether it is a refusal.
    pub fn answer(&self, name: &str, swatches: bool) -> (String, bool) {
        let (x, y) = (coordinate(self.x), coordinate(self.y));
        match explain::lines(self.scene, self.lent(), x, y) {
            Ok(lines) => {
                let background = explain::explain(self.scene, self.lent(), x, y).pixel;
                (story::told(self, name, background, &lines, swatches), false)
            }
            Err(refusal) => (fault::told(self, name, &refusal), true),
        }
    }
}

/// A coordinate as the library takes it; one that it cannot take lies outside every picture.
fn coordinate(number: i64) -> u32 {
    u32::try_from(number).unwrap_or(u32::MAX)
}
