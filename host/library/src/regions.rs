//! The redraws by rectangles, proposed or planned, and the plan.

use crate::{Answer, Context, Mask};

extern "C" {
    fn wayramesh_redraw_regions(
        context: *mut Context,
        old: *const u8,
        old_len: usize,
        new: *const u8,
        new_len: usize,
        mask_lent: u32,
        mask: *const u8,
        mask_len: usize,
        rectangles: *const i32,
        rectangles_len: usize,
        surface: *mut u8,
        surface_len: usize,
        scratch: *mut i32,
        scratch_len: usize,
    ) -> Answer;

    fn wayramesh_redraw_planned(
        context: *mut Context,
        old: *const u8,
        old_len: usize,
        new: *const u8,
        new_len: usize,
        mask_lent: u32,
        mask: *const u8,
        mask_len: usize,
        surface: *mut u8,
        surface_len: usize,
        scratch: *mut i32,
        scratch_len: usize,
    ) -> Answer;

    fn wayramesh_plan(
        old: *const u8,
        old_len: usize,
        new: *const u8,
        new_len: usize,
        mask_lent: u32,
        mask: *const u8,
        mask_len: usize,
        rectangles: *mut i32,
        rectangles_len: usize,
    ) -> Planning;
}

/// Redraws a surface from the old scene to the new, both with the same mask, in the proposed rectangles: x, y, width,
/// height for each.
#[must_use = "a call may be refused"]
pub fn redraw_regions(
    context: &mut Context,
    old: &[u8],
    new: &[u8],
    mask: Mask,
    rectangles: &[i32],
    surface: &mut [u8],
    scratch: &mut [i32],
) -> Answer {
    // SAFETY: each pointer comes with its slice's length. Context, surface and scratch overlap nothing else; scenes, mask and
    // rectangles are only read and may overlap. The function asks no more.
    unsafe {
        wayramesh_redraw_regions(
            context,
            old.as_ptr(),
            old.len(),
            new.as_ptr(),
            new.len(),
            mask.lent,
            mask.bytes.as_ptr(),
            mask.bytes.len(),
            rectangles.as_ptr(),
            rectangles.len(),
            surface.as_mut_ptr(),
            surface.len(),
            scratch.as_mut_ptr(),
            scratch.len(),
        )
    }
}

/// What a plan answers: why it is refused, or code 0 and how many rectangles were written.
#[repr(C)]
#[derive(Clone, Copy, Debug, PartialEq, Eq)]
pub struct Planning {
    /// 0, or why nothing is planned.
    pub code: u32,
    /// The draw that broke a rule, or 64.
    pub draw: u32,
    /// 1 if the new scene broke a rule.
    pub scene: u32,
    /// How many rectangles were written.
    pub count: u32,
}

/// Redraws a surface from the old scene to the new, both with the same mask, in rectangles that the library plans.
#[must_use = "a call may be refused"]
pub fn redraw_planned(
    context: &mut Context,
    old: &[u8],
    new: &[u8],
    mask: Mask,
    surface: &mut [u8],
    scratch: &mut [i32],
) -> Answer {
    // SAFETY: as in `redraw_regions`.
    unsafe {
        wayramesh_redraw_planned(
            context,
            old.as_ptr(),
            old.len(),
            new.as_ptr(),
            new.len(),
            mask.lent,
            mask.bytes.as_ptr(),
            mask.bytes.len(),
            surface.as_mut_ptr(),
            surface.len(),
            scratch.as_mut_ptr(),
            scratch.len(),
        )
    }
}

/// Writes those rectangles to the first places of a run.
#[must_use = "a call may be refused"]
pub fn plan(old: &[u8], new: &[u8], mask: Mask, rectangles: &mut [i32]) -> Planning {
    // SAFETY: each pointer comes with its slice's length. The rectangles overlap no other slice; scenes and mask are only
    // read and may overlap. The function asks no more.
    unsafe {
        wayramesh_plan(
            old.as_ptr(),
            old.len(),
            new.as_ptr(),
            new.len(),
            mask.lent,
            mask.bytes.as_ptr(),
            mask.bytes.len(),
            rectangles.as_mut_ptr(),
            rectangles.len(),
        )
    }
}
