//! The quick redraw: bounds of draws, the damaged area between two scenes, and its redrawing.

use crate::answer::{Answer, Rectangle, FIRST_SCENE, ILLEGAL_ARGUMENT, NEW_SCENE, NO_DRAW};
use crate::path::{Edge, Point};
use crate::picture::{check_buffers, store, whole};
use crate::rules::{self, Draw, Scene};

/// Redraws a surface that holds `old` so that it holds `new`, writing within the damaged area only.
///
/// A refused call changes nothing. An accepted one leaves the new scene's picture in the area, every byte outside
/// as it was, and the scratch all zero. One mask, or none, is lent for both scenes.
pub fn redraw(old: &[u8], new: &[u8], mask: Option<&[u8]>, surface: &mut [u8], scratch: &mut [i32]) -> Answer {
    let (old, new) = match check(old, new, mask, surface, scratch) {
        Ok(scenes) => scenes,
        Err(refusal) => return refusal,
    };
    let damage = damage(&old, &new);
    store(&new, mask, damage, surface);
    scratch.fill(0);
    Answer::accepted(damage)
}

/// All checks of a redraw, in their order; the two scenes if they pass.
pub(crate) fn check(
    old: &[u8],
    new: &[u8],
    mask: Option<&[u8]>,
    surface: &[u8],
    scratch: &[i32],
) -> Result<(Scene, Scene), Answer> {
    let old = rules::scene(old, mask.is_some()).map_err(|fault| fault.answer(FIRST_SCENE))?;
    let new = rules::scene(new, mask.is_some()).map_err(|fault| fault.answer(NEW_SCENE))?;
    if (old.width, old.height) != (new.width, new.height) {
        return Err(Answer::refused(ILLEGAL_ARGUMENT, NO_DRAW, NEW_SCENE));
    }
    check_buffers(&new, mask, surface, scratch)?;
    Ok((old, new))
}

/// The area to redraw between two scenes of one size; all zero where it is empty.
pub fn damage(old: &Scene, new: &Scene) -> Rectangle {
    if old.background != new.background {
        return whole(new);
    }
    changed_boxes(old, new).into_iter().reduce(Bounds::join).map_or(Rectangle::default(), Bounds::rectangle)
}

/// The boxes, old and new, of the changed draws, those without a pixel left out. Between editions every draw is changed.
pub(crate) fn changed_boxes(old: &Scene, new: &Scene) -> Vec<Bounds> {
    let count = old.draws.len().max(new.draws.len());
    let changed = (0..count)
        .map(|i| (old.draws.get(i), new.draws.get(i)))
        .filter(|(o, n)| old.edition != new.edition || o.map(|draw| &draw.bytes) != n.map(|draw| &draw.bytes));
    changed.flat_map(|(o, n)| [o, n]).flatten().filter_map(|draw| bounds(draw, new.width, new.height)).collect()
}

/// A box of pixels, both ends included.
#[derive(Clone, Copy, Debug)]
pub struct Bounds {
    pub(crate) left: i64,
    pub(crate) right: i64,
    pub(crate) bottom: i64,
    pub(crate) top: i64,
}

impl Bounds {
    /// The smallest box round both.
    pub fn join(self, other: Bounds) -> Bounds {
        Bounds {
            left: self.left.min(other.left),
            right: self.right.max(other.right),
            bottom: self.bottom.min(other.bottom),
            top: self.top.max(other.top),
        }
    }

    /// The pixels of both; None where they share none.
    pub fn meet(self, other: Bounds) -> Option<Bounds> {
        let shared = Bounds {
            left: self.left.max(other.left),
            right: self.right.min(other.right),
            bottom: self.bottom.max(other.bottom),
            top: self.top.min(other.top),
        };
        (shared.left <= shared.right && shared.bottom <= shared.top).then_some(shared)
    }

    pub fn rectangle(self) -> Rectangle {
        Rectangle {
            x: self.left as u32,
            y: self.bottom as u32,
            width: (self.right - self.left + 1) as u32,
            height: (self.top - self.bottom + 1) as u32,
        }
    }
}

/// A draw's box over all edge ends, cut to the surface; None where no pixel is left.
pub fn bounds(draw: &Draw, width: u32, height: u32) -> Option<Bounds> {
    let (left, right) = pixels(&draw.edges, |p| p.x, width)?;
    let (bottom, top) = pixels(&draw.edges, |p| p.y, height)?;
    Some(Bounds { left, right, bottom, top })
}

/// The pixels along one axis, from floor(least / 256) to floor(greatest / 256), cut to 0..size - 1.
fn pixels(edges: &[Edge], of: fn(Point) -> i64, size: u32) -> Option<(i64, i64)> {
    let ends = || edges.iter().flat_map(|e| [of(e.from), of(e.to)]);
    let first = ends().min()?.div_euclid(256).max(0);
    let last = ends().max()?.div_euclid(256).min(i64::from(size) - 1);
    (first <= last).then_some((first, last))
}
