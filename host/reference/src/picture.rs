//! The picture of a scene, pixel by pixel, and the full drawing.

use crate::answer::{Answer, Rectangle, FIRST_SCENE, NO_DRAW, OUT_OF_MEMORY, UNSUPPORTED_IMAGE_FORMAT};
use crate::blend::{composite, UNMASKED};
use crate::coverage::{coverage, edges_of_row, in_scissors};
use crate::paint::{premultiplied, Pixel};
use crate::path::Edge;
use crate::rules::{self, Draw, Scene};

/// The numbers a scratch must have at least.
pub const SCRATCH_NUMBERS: usize = 12_300;

/// Draws a scene in full.
///
/// A refused call changes nothing. An accepted one leaves the scene's picture in the surface and the scratch all
/// zero. The mask is None if none is lent.
pub fn draw(scene: &[u8], mask: Option<&[u8]>, surface: &mut [u8], scratch: &mut [i32]) -> Answer {
    let scene = match rules::scene(scene, mask.is_some()) {
        Ok(scene) => scene,
        Err(fault) => return fault.answer(FIRST_SCENE),
    };
    if let Err(refusal) = check_buffers(&scene, mask, surface, scratch) {
        return refusal;
    }
    let whole = whole(&scene);
    store(&scene, mask, whole, surface);
    scratch.fill(0);
    Answer::accepted(whole)
}

/// The surface's length, then that of the mask if one is lent, then the scratch's.
pub fn check_buffers(scene: &Scene, mask: Option<&[u8]>, surface: &[u8], scratch: &[i32]) -> Result<(), Answer> {
    let refused = |code| Err(Answer::refused(code, NO_DRAW, FIRST_SCENE));
    if surface.len() != scene.surface_bytes() {
        return refused(UNSUPPORTED_IMAGE_FORMAT);
    }
    if mask.map_or(false, |mask| mask.len() != scene.mask_bytes()) {
        return refused(UNSUPPORTED_IMAGE_FORMAT);
    }
    if scratch.len() < SCRATCH_NUMBERS {
        return refused(OUT_OF_MEMORY);
    }
    Ok(())
}

/// Every pixel of the scene's surface.
pub fn whole(scene: &Scene) -> Rectangle {
    Rectangle { x: 0, y: 0, width: scene.width, height: scene.height }
}

/// Stores the scene's picture in the pixels of a rectangle within its surface, and nothing else. A lent mask has the
/// scene's size.
pub fn store(scene: &Scene, mask: Option<&[u8]>, rectangle: Rectangle, surface: &mut [u8]) {
    for y in rectangle.y..rectangle.y + rectangle.height {
        let row = Row::new(scene, mask, y);
        for x in rectangle.x..rectangle.x + rectangle.width {
            let at = 4 * (y as usize * scene.width as usize + x as usize);
            surface[at..at + 4].copy_from_slice(&row.pixel(x.into()));
        }
    }
}

/// A row of a scene: each draw with the edges that can count there, and the row's part of a lent mask.
struct Row<'a> {
    background: Pixel,
    draws: Vec<(&'a Draw, Vec<Edge>)>,
    mask: Option<&'a [u8]>,
    y: i64,
}

impl<'a> Row<'a> {
    fn new(scene: &'a Scene, mask: Option<&'a [u8]>, y: u32) -> Row<'a> {
        let width = scene.width as usize;
        Row {
            background: premultiplied(scene.background),
            draws: scene.draws.iter().map(|draw| (draw, edges_of_row(&draw.edges, y.into()))).collect(),
            mask: mask.map(|mask| &mask[y as usize * width..][..width]),
            y: y.into(),
        }
    }

    /// The premultiplied background, and the draws over it in order.
    fn pixel(&self, x: i64) -> Pixel {
        self.draws.iter().fold(self.background, |below, (draw, edges)| self.step(draw, edges, x, below))
    }

    /// What a draw stores over the bytes that the pixel holds by then.
    fn step(&self, draw: &Draw, edges: &[Edge], x: i64, below: Pixel) -> Pixel {
        if !in_scissors(draw.scissors.as_deref(), x, self.y) {
            return below;
        }
        match coverage(edges, draw.fill_rule, x, self.y) {
            0 => below,
            k => composite(draw.blend, draw.source(x, self.y), below, k, self.mask_byte(draw, x)),
        }
    }

    /// The mask's byte, for a draw that asks for the mask; the rules refuse one that asks where none is lent.
    fn mask_byte(&self, draw: &Draw, x: i64) -> u8 {
        match self.mask {
            Some(row) if draw.masked => row[x as usize],
            _ => UNMASKED,
        }
    }
}
