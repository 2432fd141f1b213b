//! A surface with everything that its calls need: size, scratch, mask, and the scene that it shows.

use std::fmt;

use crate::{draw, redraw, Area, Context, Mask, Refusal, SCRATCH_NUMBERS};

/// The greatest width and height.
pub const MAX_SIDE: u32 = 1_024;

/// A picture in the making. It knows which scene it shows, so that the next one is drawn by redrawing what changes.
///
/// ```
/// use wayramesh::Surface;
/// use wayramesh_scene::{Draw, Path, Scene};
///
/// let mut scene = Scene::new(4, 4, [0, 0, 0, 255]);
/// scene.draws.push(Draw { color: [1.0, 0.0, 0.0, 1.0], path: Path::new().rectangle(0, 0, 2, 2), ..Draw::default() });
///
/// let mut surface = Surface::new(4, 4)?;
/// surface.show(&scene.build()?)?;
/// assert_eq!(surface.pixel(0, 0), Some([255, 0, 0, 255]));
///
/// scene.draws[0].color = [0.0, 0.0, 1.0, 1.0];
/// let area = surface.show(&scene.build()?)?;
/// assert_eq!((area.x, area.y, area.width, area.height), (0, 0, 3, 3));
/// assert_eq!(surface.pixel(0, 0), Some([0, 0, 255, 255]));
/// # Ok::<(), Box<dyn std::error::Error>>(())
/// ```
#[derive(Clone, Debug)]
pub struct Surface {
    width: u32,
    height: u32,
    pixels: Vec<u8>,
    scratch: Vec<i32>,
    mask: Option<Vec<u8>>,
    shown: Option<Vec<u8>>,
    context: Context,
}

/// A size that no surface has, or bytes that are no mask of its size.
#[derive(Clone, Copy, Debug, PartialEq, Eq)]
pub struct BadSize;

impl fmt::Display for BadSize {
    fn fmt(&self, f: &mut fmt::Formatter) -> fmt::Result {
        f.write_str("width or height is not 1 to 1,024, or the mask does not have a byte for each pixel")
    }
}

impl std::error::Error for BadSize {}

/// Width and height that a scene file names in its first four bytes, if it has them; the library judges them.
pub fn size(scene: &[u8]) -> Option<(u32, u32)> {
    match *scene {
        [w0, w1, h0, h1, ..] => Some((u16::from_le_bytes([w0, w1]).into(), u16::from_le_bytes([h0, h1]).into())),
        _ => None,
    }
}

impl Surface {
    /// A transparent surface of 1 to 1,024 pixels each way, which shows no scene yet.
    pub fn new(width: u32, height: u32) -> Result<Surface, BadSize> {
        let side = 1..=MAX_SIDE;
        if !side.contains(&width) || !side.contains(&height) {
            return Err(BadSize);
        }
        let pixels = vec![0; 4 * width as usize * height as usize];
        let (scratch, context) = (vec![0; SCRATCH_NUMBERS], Context::default());
        Ok(Surface { width, height, pixels, scratch, mask: None, shown: None, context })
    }

    /// A surface of the size that a scene file names.
    pub fn for_scene(scene: &[u8]) -> Result<Surface, BadSize> {
        let (width, height) = size(scene).ok_or(BadSize)?;
        Surface::new(width, height)
    }

    /// The number of columns.
    pub fn width(&self) -> u32 {
        self.width
    }

    /// The number of rows.
    pub fn height(&self) -> u32 {
        self.height
    }

    /// Lends a mask to all that is drawn from here on, a byte for each pixel, or none. The next scene is drawn in full.
    pub fn set_mask(&mut self, mask: Option<Vec<u8>>) -> Result<(), BadSize> {
        if mask.as_ref().map_or(false, |mask| 4 * mask.len() != self.pixels.len()) {
            return Err(BadSize);
        }
        self.mask = mask;
        self.shown = None;
        Ok(())
    }

    /// Shows a scene: redraws what differs from the one before, or draws it in full where there is none. What was drawn is
    /// answered. If the scene is refused, the surface shows what it did.
    pub fn show(&mut self, scene: &[u8]) -> Result<Area, Refusal> {
        let mask = self.mask.as_deref().map_or(Mask::NONE, Mask::of);
        let answer = match &self.shown {
            Some(old) => redraw(&mut self.context, old, scene, mask, &mut self.pixels, &mut self.scratch),
            None => draw(&mut self.context, scene, mask, &mut self.pixels, &mut self.scratch),
        };
        let area = answer.result()?;
        self.shown = Some(scene.to_vec());
        Ok(area)
    }

    /// Draws a scene in full, whatever is shown.
    pub fn draw(&mut self, scene: &[u8]) -> Result<Area, Refusal> {
        let mask = self.mask.as_deref().map_or(Mask::NONE, Mask::of);
        let area = draw(&mut self.context, scene, mask, &mut self.pixels, &mut self.scratch).result()?;
        self.shown = Some(scene.to_vec());
        Ok(area)
    }

    /// The first code other than 0 of all that was shown and drawn since it was last asked for; asking sets 0.
    pub fn take_code(&mut self) -> u32 {
        self.context.take_code()
    }

    /// The scene file that is shown.
    pub fn shown(&self) -> Option<&[u8]> {
        self.shown.as_deref()
    }

    /// R, G, B, A of each pixel, the colours premultiplied by alpha; the lowest row first.
    pub fn pixels(&self) -> &[u8] {
        &self.pixels
    }

    /// The rows of pixels from the top one down, as images have them.
    pub fn rows_from_top(&self) -> impl Iterator<Item = &[u8]> {
        self.pixels.chunks(4 * self.width as usize).rev()
    }

    /// R, G, B, A of a pixel, if it is on the surface.
    pub fn pixel(&self, x: u32, y: u32) -> Option<[u8; 4]> {
        let at = 4 * (y as usize * self.width as usize + x as usize);
        (x < self.width && y < self.height).then(|| std::array::from_fn(|i| self.pixels[at + i]))
    }
}
