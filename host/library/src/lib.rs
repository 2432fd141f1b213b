//! Wayramesh, the proved renderer of scene files, behind safe functions: the C interface of `include/wayramesh.h`, which says
//! what every argument and number means.
//!
//! - [`Surface`]: a picture with its size, scratch, mask and the scene that it shows. [`Surface::show`] takes it to the next.
//! - [`draw`], [`redraw`], [`draw_plain`], [`compare`], [`composite`]: the calls as they are, on buffers that are lent.
//! - [`Code`] and [`Refusal`]: why a call was refused, in words.
//!
//! The archive libwayramesh.a is linked from `crates/wayramesh/out` of the repository, or the folder in `WAYRAMESH_LIB_DIR`; the
//! package `wayramesh-scene` makes scene files. Nothing checks the declarations here against the library: they are the header's,
//! and the tests compare results.
#![warn(missing_docs)]

mod code;
mod surface;

pub use code::{Area, Code, Refusal};
pub use surface::{size, BadSize, Surface, MAX_SIDE};

/// The answer of a call; the header says what its numbers mean.
#[repr(C)]
#[derive(Clone, Copy, Debug, PartialEq, Eq)]
pub struct Answer {
    /// The number of a [`Code`].
    pub code: u32,
    /// The draw that broke a rule, or [`NO_DRAW`].
    pub draw: u32,
    /// 1 if it was the new scene of a redraw, else 0.
    pub scene: u32,
    /// The left column of what was drawn.
    pub x: u32,
    /// The lowest row of what was drawn.
    pub y: u32,
    /// The columns that were drawn.
    pub width: u32,
    /// The rows that were drawn.
    pub height: u32,
}

/// The numbers that a scratch must have at least.
pub const SCRATCH_NUMBERS: usize = 12_300;

/// The code of a call whose scratch has fewer.
pub const OUT_OF_MEMORY: u32 = 0x1002;

/// The draw number of what is in no draw.
pub const NO_DRAW: u32 = 64;

mod compare;
mod composite;
pub mod explain;
mod plain;
mod regions;
mod release;
mod replay;
mod salvage;

pub use compare::{compare, Comparison};
pub use composite::{composite, Composited, Pixel};
pub use plain::draw_plain;
pub use regions::{plan, redraw_planned, redraw_regions, Planning};
pub use release::{checksum, identity, Identity};
pub use replay::{replay, ANSWER_NUMBERS, MOST_SCENES};
pub use salvage::{salvage, Salvaged};

/// The mask of a call, a byte for each pixel. With 0 in `lent` there is none, whatever the bytes are; with any other number
/// it is lent.
#[derive(Clone, Copy, Debug)]
pub struct Mask<'a> {
    /// 0 if there is none.
    pub lent: u32,
    /// A byte for each pixel, row 0 first.
    pub bytes: &'a [u8],
}

impl<'a> Mask<'a> {
    /// No mask.
    pub const NONE: Mask<'static> = Mask { lent: 0, bytes: &[] };

    /// A mask that is lent.
    pub fn of(bytes: &'a [u8]) -> Mask<'a> {
        Mask { lent: 1, bytes }
    }
}

/// What keeps the first code other than 0 of the calls that it is lent to, until it is asked for.
#[repr(C)]
#[derive(Clone, Copy, Debug, Default, PartialEq, Eq)]
pub struct Context {
    /// That code, or 0.
    pub code: u32,
}

impl Context {
    /// The first code other than 0 since it was last asked for; asking sets 0.
    pub fn take_code(&mut self) -> u32 {
        // SAFETY: the context is lent for the call, and the function asks no more.
        unsafe { ffi::wayramesh_take_code(self) }
    }
}

mod ffi {
    use super::{Answer, Context};

    extern "C" {
        pub fn wayramesh_take_code(context: *mut Context) -> u32;

        pub fn wayramesh_draw(
            context: *mut Context,
            scene: *const u8,
            scene_len: usize,
            mask_lent: u32,
            mask: *const u8,
            mask_len: usize,
            surface: *mut u8,
            surface_len: usize,
            scratch: *mut i32,
            scratch_len: usize,
        ) -> Answer;

        pub fn wayramesh_redraw(
            context: *mut Context,
            old: *const u8,
            old_len: usize,
            new: *const u8,
            new_len: usize,
            mask_lent: u32,
            mask: *const u8,
            mask_len: usize,
            surface: *mut u8,
            surface_len: usize,
            scratch: *mut i32,
            scratch_len: usize,
        ) -> Answer;
    }
}

/// Draws a scene in full.
#[must_use = "a call may be refused"]
pub fn draw(context: &mut Context, scene: &[u8], mask: Mask, surface: &mut [u8], scratch: &mut [i32]) -> Answer {
    // SAFETY: each pointer comes with its slice's length. Context, surface and scratch overlap nothing else; scene and mask
    // are only read. The function asks no more.
    unsafe {
        ffi::wayramesh_draw(
            context,
            scene.as_ptr(),
            scene.len(),
            mask.lent,
            mask.bytes.as_ptr(),
            mask.bytes.len(),
            surface.as_mut_ptr(),
            surface.len(),
            scratch.as_mut_ptr(),
            scratch.len(),
        )
    }
}

/// Redraws a surface from the old scene to the new, both with the same mask.
#[must_use = "a call may be refused"]
pub fn redraw(
    context: &mut Context,
    old: &[u8],
    new: &[u8],
    mask: Mask,
    surface: &mut [u8],
    scratch: &mut [i32],
) -> Answer {
    // SAFETY: as in `draw`; the two scenes are only read and may overlap.
    unsafe {
        ffi::wayramesh_redraw(
            context,
            old.as_ptr(),
            old.len(),
            new.as_ptr(),
            new.len(),
            mask.lent,
            mask.bytes.as_ptr(),
            mask.bytes.len(),
            surface.as_mut_ptr(),
            surface.len(),
            scratch.as_mut_ptr(),
            scratch.len(),
        )
    }
}
