//! A scene with spoiled blocks, written again.

/// What a salvage answers; the header says what its numbers mean.
#[repr(C)]
#[derive(Clone, Copy, Debug, PartialEq, Eq)]
pub struct Salvaged {
    /// 0 if the scene was written, or why not.
    pub code: u32,
    /// How many draws were replaced.
    pub replaced: u32,
}

extern "C" {
    fn wayramesh_salvage(
        scene: *const u8,
        scene_len: usize,
        place: *mut u8,
        place_len: usize,
        list: *mut u32,
        list_len: usize,
    ) -> Salvaged;
}

/// Writes the salvaged scene to the start of `place`, and the number and code of each replaced draw to the start of `list`,
/// as far as it goes.
pub fn salvage(scene: &[u8], place: &mut [u8], list: &mut [u32]) -> Salvaged {
    // SAFETY: each pointer comes with its slice's length. Place and list overlap no other slice; the scene is only read.
    // The function asks no more.
    unsafe {
        wayramesh_salvage(scene.as_ptr(), scene.len(), place.as_mut_ptr(), place.len(), list.as_mut_ptr(), list.len())
    }
}
