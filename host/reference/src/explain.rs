//! Why a pixel has its colour: what each draw does there, in order.

use crate::answer::{Fault, ILLEGAL_ARGUMENT, NO_DRAW, UNSUPPORTED_IMAGE_FORMAT};
use crate::blend::{composite, UNMASKED};
use crate::coverage::{coverage, in_scissors};
use crate::paint::{premultiplied, Pixel};
use crate::rules::{self, Draw, Scene};

/// What decided about a draw at a pixel.
#[derive(Clone, Copy, Debug, PartialEq, Eq)]
pub enum Kind {
    /// Scissoring is on, and no scissor holds the pixel.
    Outside,
    /// No sample is inside its path.
    Uncovered,
    Covered {
        coverage: i64,
        /// The mask's byte, of a draw that asks for the mask.
        mask: Option<u8>,
        /// Premultiplied, as it is blended.
        paint: Pixel,
    },
}

/// What a draw does at a pixel.
#[derive(Clone, Copy, Debug, PartialEq, Eq)]
pub struct Line {
    pub kind: Kind,
    pub before: Pixel,
    pub after: Pixel,
}

/// A pixel, explained: the background, and what each draw does over it.
#[derive(Clone, Debug, PartialEq, Eq)]
pub struct Explanation {
    pub background: Pixel,
    pub lines: Vec<Line>,
}

impl Explanation {
    /// What a full drawing stores.
    pub fn pixel(&self) -> Pixel {
        self.lines.last().map_or(self.background, |line| line.after)
    }
}

/// The pixel (x, y) of a scene, or what is met first: a fault of the scene, a lent mask of another length, a pixel outside
/// the picture.
pub fn explain(scene: &[u8], mask: Option<&[u8]>, x: u64, y: u64) -> Result<Explanation, Fault> {
    let scene = rules::scene(scene, mask.is_some())?;
    let refused = |code| Err(Fault { code, draw: NO_DRAW, offset: 0 });
    if mask.map_or(false, |mask| mask.len() != scene.mask_bytes()) {
        return refused(UNSUPPORTED_IMAGE_FORMAT);
    }
    if x >= scene.width.into() || y >= scene.height.into() {
        return refused(ILLEGAL_ARGUMENT);
    }
    Ok(lines(&scene, mask, x as usize, y as usize))
}

fn lines(scene: &Scene, mask: Option<&[u8]>, x: usize, y: usize) -> Explanation {
    let mask_byte = mask.map(|mask| mask[y * scene.width as usize + x]);
    let background = premultiplied(scene.background);
    let mut pixel = background;
    let mut lines = Vec::new();
    for draw in &scene.draws {
        let line = line(draw, mask_byte, x as i64, y as i64, pixel);
        pixel = line.after;
        lines.push(line);
    }
    Explanation { background, lines }
}

/// The scissors before all else, then the samples.
fn line(draw: &Draw, mask_byte: Option<u8>, x: i64, y: i64, before: Pixel) -> Line {
    if !in_scissors(draw.scissors.as_deref(), x, y) {
        return Line { kind: Kind::Outside, before, after: before };
    }
    match coverage(&draw.edges, draw.fill_rule, x, y) {
        0 => Line { kind: Kind::Uncovered, before, after: before },
        coverage => {
            let mask = mask_byte.filter(|_| draw.masked);
            let paint = draw.source(x, y);
            let after = composite(draw.blend, paint, before, coverage, mask.unwrap_or(UNMASKED));
            Line { kind: Kind::Covered { coverage, mask, paint }, before, after }
        }
    }
}
