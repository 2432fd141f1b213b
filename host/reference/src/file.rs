//! The scene file: blocks of 512 bytes with their checks, and where the fields lie in its two editions.

use crate::number::u16_at;

pub const BLOCK: usize = 512;
/// Bytes of a block before its check.
pub const PAYLOAD: usize = 508;
pub const BLOCKS_OF_A_DRAW: usize = 4;
/// The joined payloads of a draw's blocks.
pub const DRAW_BYTES: usize = PAYLOAD * BLOCKS_OF_A_DRAW;
const CHECK_MODULUS: u64 = 65_521;

/// Places in block 0.
pub mod header {
    pub const WIDTH: usize = 0;
    pub const HEIGHT: usize = 2;
    pub const DRAWS: usize = 4;
    pub const EDITION: usize = 6;
    pub const BACKGROUND: usize = 8;
    pub const ZEROS: usize = 12;
}

/// Places in a draw's joined payloads, and how many of each thing there is room for.
pub mod draw {
    pub const FLAGS: usize = 0;
    pub const BLEND: usize = 2;
    pub const PAINT: usize = 4;
    pub const SPREAD: usize = 6;
    pub const SEGMENT_COUNT: usize = 8;
    pub const SCISSOR_COUNT: usize = 9;
    pub const STOP_COUNT: usize = 10;
    pub const ZERO: usize = 11;
    pub const MATRIX: usize = 12;
    pub const COLOR: usize = 36;
    pub const LINEAR: usize = 52;
    pub const SCISSORS: usize = 68;
    pub const SCISSOR_BYTES: usize = 16;
    pub const MAX_SCISSORS: usize = 4;
    pub const STOPS: usize = 132;
    pub const STOP_BYTES: usize = 20;
    pub const MAX_STOPS: usize = 32;
    /// A radial gradient's five floats take the first stop's place.
    pub const RADIAL: usize = STOPS;
    pub const MAX_RADIAL_STOPS: usize = MAX_STOPS - 1;
    pub const SEGMENTS: usize = 772;
    pub const MAX_SEGMENTS: usize = 128;
    /// Behind the segments come the coordinates, in the new edition behind a colour transformation of eight floats.
    pub const SEGMENTS_END: usize = SEGMENTS + MAX_SEGMENTS;
    pub const TRANSFORM: usize = SEGMENTS_END;
    pub const TRANSFORM_BYTES: usize = 32;
}

/// Which layout the draws of a file have.
#[derive(Clone, Copy, Debug, PartialEq, Eq)]
pub enum Edition {
    Old,
    New,
}

impl Edition {
    pub fn from_number(number: u16) -> Option<Edition> {
        match number {
            0 => Some(Edition::Old),
            1 => Some(Edition::New),
            _ => None,
        }
    }

    /// The place of the first coordinate.
    pub fn coordinates(self) -> usize {
        match self {
            Edition::Old => draw::SEGMENTS_END,
            Edition::New => draw::TRANSFORM + draw::TRANSFORM_BYTES,
        }
    }

    /// How many coordinates there is room for.
    pub fn max_coordinates(self) -> usize {
        (DRAW_BYTES - self.coordinates()) / 2
    }
}

/// The number of the first block of a draw.
pub fn first_block(draw: usize) -> usize {
    1 + BLOCKS_OF_A_DRAW * draw
}

/// The length of a scene with this many draws.
pub fn length(draws: usize) -> usize {
    BLOCK * first_block(draws)
}

/// The offset in the file of a block's check.
pub fn check_offset(block: usize) -> usize {
    BLOCK * block + PAYLOAD
}

/// The offset in the file of a place in a draw's joined payloads.
pub fn offset(draw: usize, place: usize) -> usize {
    BLOCK * (first_block(draw) + place / PAYLOAD) + place % PAYLOAD
}

/// The place in a draw's joined payloads of an offset in the file; none for a check, and for what is not the draw's.
pub fn place(draw: usize, offset: usize) -> Option<usize> {
    let block = (offset / BLOCK).checked_sub(first_block(draw)).filter(|&block| block < BLOCKS_OF_A_DRAW)?;
    Some(PAYLOAD * block + offset % BLOCK).filter(|_| offset % BLOCK < PAYLOAD)
}

/// The sum of the payload's words and the sum of each times its number from 1, both begun at the block's number and
/// reduced.
pub fn checksum(block: usize, payload: &[u8]) -> (u16, u16) {
    let mut sum = block as u64;
    let mut weighted = block as u64;
    for i in 1..=PAYLOAD as u64 / 2 {
        let word = u64::from(u16_at(payload, 2 * (i as usize - 1)));
        sum += word;
        weighted += i * word;
    }
    ((sum % CHECK_MODULUS) as u16, (weighted % CHECK_MODULUS) as u16)
}

/// Whether a block's stored check is the one of its payload in its place.
pub fn check_holds(file: &[u8], block: usize) -> bool {
    let payload = &file[BLOCK * block..][..PAYLOAD];
    let stored = &file[check_offset(block)..][..4];
    checksum(block, payload) == (u16_at(stored, 0), u16_at(stored, 2))
}

/// The joined payloads of a draw.
pub fn draw_bytes(file: &[u8], draw: usize) -> Vec<u8> {
    (0..BLOCKS_OF_A_DRAW).flat_map(|i| &file[BLOCK * (first_block(draw) + i)..][..PAYLOAD]).copied().collect()
}

/// The first place from `from` up to `end` whose byte is not zero.
pub fn first_nonzero(bytes: &[u8], from: usize, end: usize) -> Option<usize> {
    (from..end).find(|&at| bytes[at] != 0)
}
