//! Two pictures and where they differ, as one image: both pictures, then the difference, each with the rectangle.

use reference::compare::{Comparison, Pictures};

use crate::Picture;

/// Space round each of the three parts, in which the rectangle's frame has place.
const MARGIN: usize = 4;
/// Small pictures are shown so large, in whole steps.
const SHOWN: usize = 256;

const BACKGROUND: [u8; 3] = [24, 24, 24];
const FRAME: [u8; 3] = [255, 0, 255];
/// What shows through a transparent pixel.
const BEHIND: u32 = 96;

/// The image, its top row first.
pub fn image(pictures: &Pictures, answer: &Comparison) -> Picture {
    let (width, height) = (pictures.width as usize, pictures.height as usize);
    let scale = (SHOWN / width.max(height)).max(1);
    let part = width * scale + 2 * MARGIN;
    let mut canvas = Canvas::new(3 * part, height * scale + 2 * MARGIN);
    let [a, b] = &pictures.surfaces;
    for y in 0..height {
        for x in 0..width {
            let at = 4 * ((height - 1 - y) * width + x);
            let (p, q) = (&a[at..at + 4], &b[at..at + 4]);
            for (i, color) in [opaque(p), opaque(q), difference(p, q)].into_iter().enumerate() {
                canvas.fill(i * part + MARGIN + x * scale, MARGIN + y * scale, scale, scale, color);
            }
        }
    }
    if answer.count > 0 {
        let (x, y) =
            (answer.x as usize * scale + MARGIN, (height - (answer.y + answer.height) as usize) * scale + MARGIN);
        let (width, height) = (answer.width as usize * scale, answer.height as usize * scale);
        for i in 0..3 {
            canvas.frame(i * part + x - 1, y - 1, width + 2, height + 2);
        }
    }
    canvas.picture
}

/// A premultiplied pixel over a plain ground.
fn opaque(pixel: &[u8]) -> [u8; 3] {
    let behind = BEHIND * (255 - u32::from(pixel[3])) / 255;
    [0, 1, 2].map(|i| (u32::from(pixel[i]) + behind).min(255) as u8)
}

/// Black where the pixels are the same; else a red that is brighter for a larger difference, and never dark.
fn difference(p: &[u8], q: &[u8]) -> [u8; 3] {
    match p.iter().zip(q).map(|(&c, &d)| u32::from(c.abs_diff(d))).max() {
        None | Some(0) => [0, 0, 0],
        Some(largest) => [(96 + largest * 159 / 255) as u8, (largest / 2) as u8, (largest / 2) as u8],
    }
}

struct Canvas {
    picture: Picture,
}

impl Canvas {
    fn new(width: usize, height: usize) -> Canvas {
        let mut canvas = Canvas { picture: Picture { width, height, rgba: vec![255; 4 * width * height] } };
        canvas.fill(0, 0, width, height, BACKGROUND);
        canvas
    }

    fn fill(&mut self, x: usize, y: usize, width: usize, height: usize, color: [u8; 3]) {
        for row in y..y + height {
            for column in x..x + width {
                let at = 4 * (row * self.picture.width + column);
                self.picture.rgba[at..at + 3].copy_from_slice(&color);
            }
        }
    }

    fn frame(&mut self, x: usize, y: usize, width: usize, height: usize) {
        self.fill(x, y, width, 1, FRAME);
        self.fill(x, y + height - 1, width, 1, FRAME);
        self.fill(x, y, 1, height, FRAME);
        self.fill(x + width - 1, y, 1, height, FRAME);
    }
}

#[cfg(test)]
mod tests {
    use super::*;

    /// Two rows of two pixels, of which the upper right one differs.
    #[test]
    fn shows_the_differing_pixel_and_frames_it() {
        let mut b = vec![0; 16];
        b[12] = 255;
        let pictures = Pictures { width: 2, height: 2, surfaces: [vec![0; 16], b] };
        let answer = reference::compare::compare(2, 2, &pictures.surfaces[0], &pictures.surfaces[1]);
        let image = image(&pictures, &answer);
        assert_eq!((image.width, image.height), (3 * 264, 264));
        let at = |x: usize, y: usize| &image.rgba[4 * (y * image.width + x)..][..3];
        let right = 2 * 264 + MARGIN + 128;
        assert_eq!(at(right, MARGIN), [255, 127, 127]);
        assert_eq!(at(right - 2, MARGIN), [0, 0, 0]);
        assert_eq!(at(right, MARGIN + 128 + 1), [0, 0, 0]);
        for frame in [at(right, MARGIN - 1), at(right - 1, MARGIN), at(right, MARGIN + 128), at(right + 128, MARGIN)] {
            assert_eq!(frame, FRAME);
        }
        assert_eq!(at(MARGIN + 128, MARGIN), [96, 96, 96]);
        assert_eq!(at(264 + MARGIN + 128, MARGIN), [255, 96, 96]);
    }
}
