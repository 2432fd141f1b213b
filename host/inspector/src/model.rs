//! What is inspected: one scene file or two, and the mask that is lent to them.

use library::explain::{self, Explanation};
use library::{compare, Area, Code, Comparison, Mask, Refusal, Surface, NO_DRAW};
use reference::rules::{self, Scene};
use reference::salvage::{write_empty, Replaced};
use why::Question;

/// The numbers of the longest plan: four rectangles of x, y, width, height.
const PLANNED_NUMBERS: usize = 16;

/// All that is inspected.
#[derive(Debug)]
pub struct Model {
    /// The scene, and the new one if there are two.
    pub scenes: Vec<Inspected>,
    mask: Option<Vec<u8>>,
}

/// A scene file.
#[derive(Debug)]
pub struct Inspected {
    /// What it is called on the page.
    pub name: String,
    /// Its bytes.
    pub file: Vec<u8>,
    /// The library's refusal with the mask that is lent; none if it is accepted.
    pub refusal: Option<Explanation>,
    /// What can be shown of it; none if it cannot be salvaged.
    pub shown: Option<Shown>,
}

/// A scene whose draws all keep the rules where a mask is lent.
#[derive(Debug)]
pub struct Shown {
    /// The file, or the salvaged one.
    pub bytes: Vec<u8>,
    /// The draws that were replaced by empty ones; none if the file is shown as it stands.
    pub replaced: Vec<Replaced>,
    /// The same taken apart.
    pub scene: Scene,
}

/// What a redraw between the two scenes does.
#[derive(Clone, Debug, PartialEq, Eq)]
pub struct Change {
    /// The area that is redrawn.
    pub area: Area,
    /// The rectangles of a planned redraw.
    pub planned: Vec<Area>,
    /// The two pictures compared.
    pub comparison: Comparison,
}

impl Model {
    /// Scene files by their names, and the mask's bytes if one is lent.
    pub fn new(files: Vec<(String, Vec<u8>)>, mask: Option<Vec<u8>>) -> Model {
        let mut model = Model { scenes: Vec::new(), mask };
        model.scenes = files.into_iter().map(|(name, file)| model.inspect(name, file)).collect();
        model
    }

    fn inspect(&self, name: String, file: Vec<u8>) -> Inspected {
        // An accepted scene has a pixel (0, 0), so a refusal is the scene's or the mask's.
        let verdict = explain::explain(&file, self.lent(), 0, 0);
        let refusal = (verdict.code != 0).then_some(verdict);
        Inspected { shown: Shown::of(&file), name, refusal, file }
    }

    fn lent(&self) -> Mask<'_> {
        self.mask.as_deref().map_or(Mask::NONE, Mask::of)
    }

    /// A pixel of a scene, as it is asked for.
    pub fn question<'a>(&'a self, scene: &'a [u8], x: usize, y: usize) -> Question<'a> {
        let coordinate = |number| i64::try_from(number).unwrap_or(i64::MAX);
        Question { scene, mask: self.mask.as_deref(), x: coordinate(x), y: coordinate(y) }
    }

    /// The library's picture of a scene, premultiplied, the lowest row first; or its refusal.
    pub fn picture(&self, scene: &[u8]) -> Result<Vec<u8>, Refusal> {
        Ok(self.drawn(scene)?.pixels().to_vec())
    }

    /// A surface that shows a scene.
    fn drawn(&self, scene: &[u8]) -> Result<Surface, Refusal> {
        // Sizes that no surface and no mask has; the library would answer the same.
        let bad_size = |_| Refusal { code: Code::UnsupportedImageFormat, draw: None, in_new_scene: false };
        let mut surface = Surface::for_scene(scene).map_err(bad_size)?;
        surface.set_mask(self.mask.clone()).map_err(bad_size)?;
        surface.draw(scene)?;
        Ok(surface)
    }

    /// What the library redraws from the first scene to the second, as far as they are shown; none unless there are two to
    /// show.
    pub fn change(&self) -> Option<Result<Change, Refusal>> {
        match &self.scenes[..] {
            [old, new] => Some(self.redrawn(&old.shown.as_ref()?.bytes, &new.shown.as_ref()?.bytes)),
            _ => None,
        }
    }

    fn redrawn(&self, old: &[u8], new: &[u8]) -> Result<Change, Refusal> {
        let before = self.drawn(old)?;
        let mut after = before.clone();
        let area = after.show(new)?;
        let comparison = compare(before.width(), before.height(), before.pixels(), after.pixels());
        Ok(Change { area, planned: self.planned_rectangles(old, new), comparison })
    }

    /// The rectangles in which the library plans to redraw; none where nothing is redrawn.
    fn planned_rectangles(&self, old: &[u8], new: &[u8]) -> Vec<Area> {
        let mut numbers = [0; PLANNED_NUMBERS];
        let planning = library::plan(old, new, self.lent(), &mut numbers);
        numbers.chunks_exact(4).take(planning.count as usize).map(rectangle).collect()
    }
}

impl Shown {
    /// The file if its draws keep the rules, or the salvaged one: the library leaves a draw that keeps them as it is.
    fn of(file: &[u8]) -> Option<Shown> {
        let mut bytes = vec![0; file.len()];
        let mut list = [0; 2 * NO_DRAW as usize];
        let salvaged = library::salvage(file, &mut bytes, &mut list);
        if salvaged.code != 0 {
            return None;
        }
        let replaced = list.chunks_exact(2).take(salvaged.replaced as usize);
        let replaced = replaced.map(|pair| Replaced { draw: pair[0], code: pair[1] }).collect();
        let scene = rules::scene(&bytes, true).ok()?;
        Some(Shown { bytes, replaced, scene })
    }

    /// The scene with these draws replaced by empty ones; one that it does not have is passed over.
    pub fn without(&self, off: &[usize]) -> Vec<u8> {
        let mut bytes = self.bytes.clone();
        for &draw in off.iter().filter(|&&draw| draw < self.scene.draws.len()) {
            write_empty(&mut bytes, draw);
        }
        bytes
    }
}

/// A rectangle of a plan, which lies on the surface: none of its numbers is below 0.
fn rectangle(numbers: &[i32]) -> Area {
    let number = |i: usize| numbers[i].unsigned_abs();
    Area { x: number(0), y: number(1), width: number(2), height: number(3) }
}
