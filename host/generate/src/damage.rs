//! Random scenes spoiled in a few places. Most have fresh checks, so that the rules behind the checks are met.

use scene::{file_offset, seal_block, seal_block_from, Scene, BLOCK};

use crate::places::exchange;
use crate::Random;

/// The scene's file, spoiled in one to three places.
pub fn damaged(random: &mut Random, scene: &Scene) -> Vec<u8> {
    let mut bytes = scene.bytes();
    for _ in 0..random.pick(&[1, 1, 1, 2, 3]) {
        spoil(random, &mut bytes);
    }
    bytes
}

/// What may happen to one block of a file: a change, given the file and the block's number.
pub type Damage = (&'static str, fn(&mut Vec<u8>, usize));

/// Damage of a whole block, with the check as it was, with a wrong one, and with a fresh one.
pub const OF_A_BLOCK: [Damage; 11] = [
    ("zeros", |file, block| whole(file, block).fill(0)),
    ("zeros, sealed", |file, block| {
        whole(file, block).fill(0);
        seal_block(file, block);
    }),
    // Zeros have the sums b and b: 65,521 more is the same number modulo 65,521, and is wrong.
    ("zeros, a check that is only congruent", |file, block| {
        whole(file, block).fill(0);
        let sum = (65_521 + block.min(14)) as u16;
        whole(file, block)[508..510].copy_from_slice(&sum.to_le_bytes());
        whole(file, block)[510..].copy_from_slice(&sum.to_le_bytes());
    }),
    ("ones", |file, block| whole(file, block).fill(0xFF)),
    ("ones, sealed", |file, block| {
        whole(file, block).fill(0xFF);
        seal_block(file, block);
    }),
    ("the next block's bytes", next_block),
    ("the next block's bytes, sealed", |file, block| {
        next_block(file, block);
        seal_block(file, block);
    }),
    ("sums from 0", |file, block| seal_block_from(file, block, 0)),
    ("sums from the next number", |file, block| seal_block_from(file, block, block as u64 + 1)),
    ("cut off", |file, block| file.truncate(BLOCK * block)),
    ("cut off behind its first byte", |file, block| file.truncate(BLOCK * block + 1)),
];

fn whole(file: &mut [u8], block: usize) -> &mut [u8] {
    &mut file[BLOCK * block..][..BLOCK]
}

fn next_block(file: &mut Vec<u8>, block: usize) {
    let next = (block + 1) % (file.len() / BLOCK);
    file.copy_within(BLOCK * next..BLOCK * (next + 1), BLOCK * block);
}

fn spoil(random: &mut Random, bytes: &mut Vec<u8>) {
    if bytes.len() < BLOCK {
        return;
    }
    match random.range(0, 24) {
        0 => {
            let length = random.pick(&[0, 1, 511, 512, bytes.len() - 1, bytes.len() - 512, bytes.len() + 512]);
            bytes.resize(length, 0);
        }
        // A byte anywhere, checks included, with no fresh check.
        1 => {
            let at = random.index(bytes.len());
            bytes[at] ^= 1 << random.range(0, 7);
        }
        // Two blocks exchanged, each with the check of its old place.
        2 => {
            let count = bytes.len() / BLOCK;
            let (a, b) = (random.index(count), random.index(count));
            exchange(bytes, a, b);
        }
        3 => spoil_header(random, bytes),
        _ => spoil_draw(random, bytes),
    }
}

fn spoil_header(random: &mut Random, bytes: &mut [u8]) {
    match random.range(0, 3) {
        0 => put(bytes, random.pick(&[0, 2]), &random.pick(&[0_u16, 1, 1_024, 1_025, 65_535]).to_le_bytes()),
        1 => put(bytes, 4, &random.pick(&[0_u16, 1, 2, 64, 65, 256]).to_le_bytes()),
        2 => put(bytes, 6, &random.pick(&[0_u16, 1, 1, 2, 256, 65_535]).to_le_bytes()),
        _ => put(bytes, random.range(8, 507) as usize, &[random.byte()]),
    }
}

fn spoil_draw(random: &mut Random, bytes: &mut [u8]) {
    let draws = (bytes.len() / BLOCK - 1) / 4;
    if draws == 0 {
        return;
    }
    let draw = random.index(draws);
    let count = |bytes: &[u8], place| usize::from(bytes[file_offset(draw, place)]);
    let mut put_in_draw = |place: usize, value: &[u8]| put(bytes, file_offset(draw, place), value);
    match random.range(0, 13) {
        0 => {
            let place = random.pick(&[0, 2, 4, 6]);
            put_in_draw(place, &[random.byte() & 31]);
        }
        1 => {
            let place = random.range(0, 7) as usize;
            put_in_draw(place, &[random.byte()]);
        }
        2 => {
            let (place, value) =
                random.pick(&[(8, 128), (8, 129), (9, 4), (9, 5), (10, 31), (10, 32), (10, 33), (11, 1)]);
            put_in_draw(place, &[value]);
        }
        3 => put_in_draw(random.range(8, 10) as usize, &[random.range(0, 40) as u8]),
        4 | 5 => {
            let place = 12 + 4 * random.index(14);
            put_in_draw(place, &special_float(random).to_le_bytes());
        }
        6 => {
            // Among all stops, or in the first place, where a radial gradient is.
            let floats = random.pick(&[160, 5]);
            let place = 132 + 4 * random.index(floats);
            put_in_draw(place, &special_float(random).to_le_bytes());
        }
        7 | 8 => {
            let used = count(bytes, 8).clamp(1, 128);
            let place = 772 + random.index(used);
            put(bytes, file_offset(draw, place), &[random.range(0, 40) as u8]);
        }
        9 | 10 => {
            let place = 900 + 2 * random.index(40);
            let any = random.bits() as i16;
            let value = random.pick(&[0, 1, -1, i16::MAX, i16::MIN, any]);
            put_in_draw(place, &value.to_le_bytes());
        }
        // The transformation of edition 1, which in edition 0 is sixteen coordinates.
        12 => put_in_draw(900 + 4 * random.index(8), &special_float(random).to_le_bytes()),
        // A matrix that is flat, or that becomes so with another such change.
        11 => {
            let (place, length) = random.pick(&[(12, 4), (24, 4), (12, 16)]);
            put_in_draw(place, &[0; 16][..length]);
        }
        _ => put_in_draw(random.index(2_032), &[random.byte()]),
    }
}

/// Values about the limits of the fields, and those that are no numbers.
fn special_float(random: &mut Random) -> f32 {
    let limit = random.pick(&[1.0, 256.0, 1_024.0, 4_096.0, 32_768.0, 0.0, 1e-40, f32::MAX, f32::INFINITY, f32::NAN]);
    let value = match random.range(0, 3) {
        0 => f32::from_bits(limit.to_bits() + 1),
        1 => f32::from_bits(limit.to_bits().saturating_sub(1)),
        _ => limit,
    };
    if random.once_in(2) {
        -value
    } else {
        value
    }
}

/// Writes a value and makes the check of its block fresh.
fn put(bytes: &mut [u8], at: usize, value: &[u8]) {
    bytes[at..at + value.len()].copy_from_slice(value);
    seal_block(bytes, at / BLOCK);
}
