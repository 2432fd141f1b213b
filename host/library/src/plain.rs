//! The plain engine.

use crate::{Answer, Mask};

extern "C" {
    fn wayramesh_draw_plain(
        scene: *const u8,
        scene_len: usize,
        mask_lent: u32,
        mask: *const u8,
        mask_len: usize,
        surface: *mut u8,
        surface_len: usize,
        scratch: *mut i32,
        scratch_len: usize,
    ) -> Answer;
}

/// Draws a scene in full, by each pixel, each sample and each edge.
#[must_use = "a call may be refused"]
pub fn draw_plain(scene: &[u8], mask: Mask, surface: &mut [u8], scratch: &mut [i32]) -> Answer {
    // SAFETY: as in `draw`.
    unsafe {
        wayramesh_draw_plain(
            scene.as_ptr(),
            scene.len(),
            mask.lent,
            mask.bytes.as_ptr(),
            mask.bytes.len(),
            surface.as_mut_ptr(),
            surface.len(),
            scratch.as_mut_ptr(),
            scratch.len(),
        )
    }
}
