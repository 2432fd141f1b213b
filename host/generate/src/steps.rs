//! Calls of the blending step alone: pixels of any bytes, numbers that it does not take, and the cases of a text.

use crate::Random;

/// Four bytes R, G, B, A, premultiplied or stray.
pub type Pixel = [u8; 4];

/// The arguments of a call.
#[derive(Clone, Copy, Debug, PartialEq, Eq)]
pub struct Step {
    pub mode: u32,
    pub coverage: u32,
    pub mask: u32,
    pub source: Pixel,
    pub destination: Pixel,
}

/// A call with its code and the pixel that it leaves.
pub struct Case {
    pub step: Step,
    pub code: u32,
    pub pixel: Pixel,
}

pub const MODES: [u32; 5] = [0x2000, 0x2001, 0x2002, 0x2003, 0x2004];
pub const MOST_COVERAGE: u32 = 16;
/// The mask's byte that hides nothing.
pub const MOST_MASK: u32 = 255;

/// No modes: OpenVG's other ones, and numbers that would be modes with fewer bits.
pub const NO_MODES: [u32; 13] =
    [0, 1, 4, 0x1FFF, 0x2005, 0x2006, 0x2009, 0x2100, 0x1_2001, 0x8000_2001, 0x2001_0000, 0x7FFF_FFFF, u32::MAX];

/// No coverages; some would be with fewer bits, or signed.
pub const NO_COVERAGES: [u32; 9] = [17, 18, 32, 255, 256, 256 + 8, 65_536 + 16, 0x8000_0000, u32::MAX];

/// No bytes of a mask; some would be with fewer bits.
pub const NO_MASKS: [u32; 7] = [256, 257, 511, 65_536, 65_535 + 256, 0x8000_0000, u32::MAX];

/// A byte of a mask.
pub fn mask(random: &mut Random) -> u32 {
    byte(random).into()
}

/// A pixel of any bytes, or one whose colours are not above its alpha.
pub fn pixel(random: &mut Random) -> Pixel {
    let mut pixel = [0; 4].map(|_: u8| byte(random));
    if random.once_in(3) {
        let alpha = pixel[3];
        pixel = pixel.map(|channel| channel.min(alpha));
    }
    pixel
}

/// Often at an end of the range or in its middle, or next to it.
fn byte(random: &mut Random) -> u8 {
    let any = random.byte();
    random.pick(&[any, any, any, 0, 1, 2, 127, 128, 129, 253, 254, 255])
}

/// The cases of a text, a line each: `MODE SOURCE DESTINATION COVERAGE MASK : PIXEL`, or `refused CODE PIXEL` behind the
/// colon. The mask may be missing, and is 255 then. It and coverages are decimal, all other numbers hexadecimal. A line
/// that begins with # is none.
pub fn cases(text: &str) -> Vec<Case> {
    text.lines().filter(|line| !line.starts_with('#')).map(case).collect()
}

fn case(line: &str) -> Case {
    let (call, result) = line.split_once(" : ").unwrap_or_else(|| panic!("no case of the step: {line}"));
    let (code, pixel) = match result.split(' ').collect::<Vec<_>>()[..] {
        [pixel] => (0, pixel),
        ["refused", code, pixel] => (number(code), pixel),
        _ => panic!("no result of the step: {line}"),
    };
    let (mode, source, destination, coverage, mask) = match call.split(' ').collect::<Vec<_>>()[..] {
        [mode, source, destination, coverage] => (mode, source, destination, coverage, "255"),
        [mode, source, destination, coverage, mask] => (mode, source, destination, coverage, mask),
        _ => panic!("no call of the step: {line}"),
    };
    let step = Step {
        mode: number(mode),
        coverage: coverage.parse().expect("a coverage"),
        mask: mask.parse().expect("a mask's byte"),
        source: number(source).to_be_bytes(),
        destination: number(destination).to_be_bytes(),
    };
    Case { step, code, pixel: number(pixel).to_be_bytes() }
}

fn number(word: &str) -> u32 {
    u32::from_str_radix(word, 16).unwrap_or_else(|error| panic!("{word}: {error}"))
}
