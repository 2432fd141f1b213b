//! Two pictures compared.

/// What a comparison answers; the header says what its numbers mean.
#[repr(C)]
#[derive(Clone, Copy, Debug, Default, PartialEq, Eq)]
pub struct Comparison {
    /// The number of a [`Code`](crate::Code).
    pub code: u32,
    /// 1 if the pictures are the same in every byte, else 0.
    pub equal: u32,
    /// How many pixels differ.
    pub count: u32,
    /// The left column of the smallest rectangle that holds them.
    pub x: u32,
    /// Its lowest row.
    pub y: u32,
    /// Its columns.
    pub width: u32,
    /// Its rows.
    pub height: u32,
    /// The largest difference of any channel of any pixel.
    pub largest: u32,
    /// The least y * width + x of a differing pixel.
    pub least: u32,
}

extern "C" {
    fn wayramesh_compare(width: u32, height: u32, a: *const u8, a_len: usize, b: *const u8, b_len: usize)
        -> Comparison;
}

/// Compares two surfaces of `width` by `height` pixels.
#[must_use = "a comparison is for its answer"]
pub fn compare(width: u32, height: u32, a: &[u8], b: &[u8]) -> Comparison {
    // SAFETY: each pointer comes with its slice's length; both are only read and may overlap. The function asks no more.
    unsafe { wayramesh_compare(width, height, a.as_ptr(), a.len(), b.as_ptr(), b.len()) }
}
