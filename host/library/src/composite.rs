//! The blending step on one pixel.

/// Four bytes as a surface has them, the colours premultiplied by alpha.
#[repr(C)]
#[derive(Clone, Copy, Debug, PartialEq, Eq)]
pub struct Pixel {
    /// Red.
    pub r: u8,
    /// Green.
    pub g: u8,
    /// Blue.
    pub b: u8,
    /// Alpha.
    pub a: u8,
}

impl From<[u8; 4]> for Pixel {
    fn from([r, g, b, a]: [u8; 4]) -> Pixel {
        Pixel { r, g, b, a }
    }
}

impl From<Pixel> for [u8; 4] {
    fn from(pixel: Pixel) -> [u8; 4] {
        [pixel.r, pixel.g, pixel.b, pixel.a]
    }
}

/// What the step answers; the header says what it means.
#[repr(C)]
#[derive(Clone, Copy, Debug, PartialEq, Eq)]
pub struct Composited {
    /// The number of a [`Code`](crate::Code).
    pub code: u32,
    /// What is to be stored, or the destination as it was given.
    pub pixel: Pixel,
}

extern "C" {
    fn wayramesh_composite(mode: u32, coverage: u32, mask: u32, source: Pixel, destination: Pixel) -> Composited;
}

/// Blends a source over a destination under a coverage of 0 to 16 and a mask's byte of 0 to 255.
#[must_use = "the pixel is not stored anywhere"]
pub fn composite(mode: u32, coverage: u32, mask: u32, source: Pixel, destination: Pixel) -> Composited {
    // SAFETY: all arguments go by value, and the function takes every one.
    unsafe { wayramesh_composite(mode, coverage, mask, source, destination) }
}
