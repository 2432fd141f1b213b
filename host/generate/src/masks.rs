//! Random masks: a byte for each pixel, of which 0 lets no paint through and 255 all.

use crate::Random;

/// A mask for a surface of this size, row by row.
pub fn mask(random: &mut Random, width: u16, height: u16) -> Vec<u8> {
    (0..height).flat_map(|_| row(random, width.into())).collect()
}

/// All alike, all but one alike, in runs, in equal steps, or anything.
fn row(random: &mut Random, width: usize) -> Vec<u8> {
    let any = random.byte();
    match random.range(0, 6) {
        0 => vec![255; width],
        1 => vec![random.pick(&[0, 0, 1, 254, any]); width],
        2 => {
            let mut row = vec![random.pick(&[0, 255]); width];
            row[random.index(width)] = any;
            row
        }
        3 | 4 => {
            let mut row = Vec::new();
            while row.len() < width {
                let length = row.len() + random.pick(&[1, 2, 3, 7, 16, 31]);
                row.resize(length.min(width), random.pick(&[0, 255, any, 1, 128, 254]));
            }
            row
        }
        5 => (0..width).map(|x| any.wrapping_add((255 * x / width) as u8)).collect(),
        _ => (0..width).map(|_| random.byte()).collect(),
    }
}
