//! Why a pixel has its colour.

use crate::{Mask, Pixel};

/// How an explanation begins; the header says what its numbers mean.
#[repr(C)]
#[derive(Clone, Copy, Debug, PartialEq, Eq)]
pub struct Explanation {
    /// 0, or why nothing is explained.
    pub code: u32,
    /// The draw that broke a rule, or 64.
    pub draw: u32,
    /// Where in a refused file the rules were broken.
    pub offset: usize,
    /// How many draws the scene has.
    pub draws: u32,
    /// The pixel before the first of them.
    pub pixel: Pixel,
}

/// What a draw does at a pixel.
#[repr(C)]
#[derive(Clone, Copy, Debug, PartialEq, Eq)]
pub struct Line {
    /// [`NO_LINE`], [`OUTSIDE`], [`UNCOVERED`] or [`COVERED`].
    pub kind: u32,
    /// The pixel before the draw.
    pub before: Pixel,
    /// The pixel after it.
    pub after: Pixel,
    /// How many of its samples are covered.
    pub coverage: u32,
    /// 1 if the draw uses the mask.
    pub masked: u32,
    /// The mask's byte, if it does.
    pub mask: u32,
    /// The paint as it is blended, premultiplied.
    pub paint: Pixel,
}

/// The kind of a line of no draw: the scene has none of that number, or nothing is explained.
pub const NO_LINE: u32 = 0;
/// Outside scissors that are on.
pub const OUTSIDE: u32 = 1;
/// No sample is covered.
pub const UNCOVERED: u32 = 2;
/// Blended.
pub const COVERED: u32 = 3;

extern "C" {
    fn wayramesh_explain(
        scene: *const u8,
        scene_len: usize,
        mask_lent: u32,
        mask: *const u8,
        mask_len: usize,
        x: u32,
        y: u32,
    ) -> Explanation;

    fn wayramesh_explain_draw(
        scene: *const u8,
        scene_len: usize,
        mask_lent: u32,
        mask: *const u8,
        mask_len: usize,
        x: u32,
        y: u32,
        draw: u32,
        before: Pixel,
    ) -> Line;
}

/// Begins the explanation of the pixel (x, y).
pub fn explain(scene: &[u8], mask: Mask, x: u32, y: u32) -> Explanation {
    // SAFETY: each pointer comes with its slice's length; both are only read. The function asks no more.
    unsafe { wayramesh_explain(scene.as_ptr(), scene.len(), mask.lent, mask.bytes.as_ptr(), mask.bytes.len(), x, y) }
}

/// The line of a draw at the pixel (x, y), which holds `before`.
pub fn explain_draw(scene: &[u8], mask: Mask, x: u32, y: u32, draw: u32, before: Pixel) -> Line {
    // SAFETY: as in `explain`.
    unsafe {
        wayramesh_explain_draw(
            scene.as_ptr(),
            scene.len(),
            mask.lent,
            mask.bytes.as_ptr(),
            mask.bytes.len(),
            x,
            y,
            draw,
            before,
        )
    }
}

/// The lines of all draws in order, each from the pixel that the one before it leaves; or the refusal.
pub fn lines(scene: &[u8], mask: Mask, x: u32, y: u32) -> Result<Vec<Line>, Explanation> {
    let start = explain(scene, mask, x, y);
    if start.code != 0 {
        return Err(start);
    }
    let mut pixel = start.pixel;
    let line = |draw| {
        let line = explain_draw(scene, mask, x, y, draw, pixel);
        pixel = line.after;
        line
    };
    Ok((0..start.draws).map(line).collect())
}
