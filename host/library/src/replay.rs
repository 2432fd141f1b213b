//! Many scenes in one call.

use crate::{Context, Mask};

/// The most scenes of a replay.
pub const MOST_SCENES: usize = 600;

/// The numbers of an answer: code, draw, scene, x, y, width, height.
pub const ANSWER_NUMBERS: usize = 7;

extern "C" {
    fn wayramesh_replay(
        context: *mut Context,
        scenes: *const u8,
        scenes_len: usize,
        lengths: *const u32,
        lengths_len: usize,
        mask_lent: u32,
        mask: *const u8,
        mask_len: usize,
        surface: *mut u8,
        surface_len: usize,
        scratch: *mut i32,
        scratch_len: usize,
        answers: *mut u32,
        answers_len: usize,
    ) -> u32;
}

/// Shows scenes that lie one behind another, by their lengths: each redrawn from the one accepted last, or drawn in full while
/// there is none. Seven numbers for each go to the answers.
pub fn replay(
    context: &mut Context,
    scenes: &[u8],
    lengths: &[u32],
    mask: Mask,
    surface: &mut [u8],
    scratch: &mut [i32],
    answers: &mut [u32],
) -> u32 {
    // SAFETY: each pointer comes with its slice's length. Context, surface, scratch and answers overlap nothing else; scenes,
    // lengths and mask are only read. The function asks no more.
    unsafe {
        wayramesh_replay(
            context,
            scenes.as_ptr(),
            scenes.len(),
            lengths.as_ptr(),
            lengths.len(),
            mask.lent,
            mask.bytes.as_ptr(),
            mask.bytes.len(),
            surface.as_mut_ptr(),
            surface.len(),
            scratch.as_mut_ptr(),
            scratch.len(),
            answers.as_mut_ptr(),
            answers.len(),
        )
    }
}
