//! Blending: the Porter-Duff factors of document 001, Table 15, and the stored byte at a coverage, under a mask's byte.

use crate::answer::{ACCEPTED, ILLEGAL_ARGUMENT};
use crate::paint::Pixel;

const ALPHA: usize = 3;

/// The mask's byte of a draw that asks for no mask.
pub const UNMASKED: u8 = 255;

#[derive(Clone, Copy, Debug, PartialEq, Eq)]
pub enum Blend {
    Src,
    SrcOver,
    DstOver,
    SrcIn,
    DstIn,
}

impl Blend {
    pub fn from_number(number: u16) -> Option<Blend> {
        match number {
            0x2000 => Some(Blend::Src),
            0x2001 => Some(Blend::SrcOver),
            0x2002 => Some(Blend::DstOver),
            0x2003 => Some(Blend::SrcIn),
            0x2004 => Some(Blend::DstIn),
            _ => None,
        }
    }

    /// Fs and Fd in 255ths for the source's and the destination's alpha.
    fn factors(self, source: i64, destination: i64) -> (i64, i64) {
        match self {
            Blend::Src => (255, 0),
            Blend::SrcOver => (255, 255 - source),
            Blend::DstOver => (255 - destination, 255),
            Blend::SrcIn => (destination, 0),
            Blend::DstIn => (0, source),
        }
    }
}

/// The step called alone (paper 02, P2 and P6): its code, and the pixel that it leaves. Every byte is taken.
pub fn step(mode: u32, coverage: u32, mask: u32, source: Pixel, destination: Pixel) -> (u32, Pixel) {
    let mode = u16::try_from(mode).ok().and_then(Blend::from_number);
    match (mode, u8::try_from(mask)) {
        (Some(mode), Ok(mask)) if coverage <= 16 => {
            (ACCEPTED, composite(mode, source, destination, coverage.into(), mask))
        }
        _ => (ILLEGAL_ARGUMENT, destination),
    }
}

/// The four bytes stored over `destination`, both premultiplied, at a coverage of 0 to 16 and under a mask's byte.
pub fn composite(mode: Blend, source: Pixel, destination: Pixel, coverage: i64, mask: u8) -> Pixel {
    if coverage == 0 {
        return destination;
    }
    let destination = read(destination);
    let (fs, fd) = mode.factors(source[ALPHA].into(), destination[ALPHA].into());
    // How much of the pixel the paint takes, in parts of 16 * 255.
    let share = coverage * i64::from(mask);
    std::array::from_fn(|channel| {
        let (s, d) = (i64::from(source[channel]), i64::from(destination[channel]));
        let blended = ((s * fs + d * fd + 127) / 255).min(255);
        ((blended * share + d * (4_080 - share) + 2_040) / 4_080) as u8
    })
}

/// A premultiplied destination as it is read: its colours are clamped to 0..alpha.
fn read(stored: Pixel) -> Pixel {
    stored.map(|channel| channel.min(stored[ALPHA]))
}
