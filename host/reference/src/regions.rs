//! The redraw by rectangles that anyone proposes, judged pixel by pixel.

use crate::answer::{Answer, FIRST_SCENE, ILLEGAL_ARGUMENT, NO_DRAW};
use crate::picture::store;
use crate::redraw::{self, Bounds};
use crate::rules::Scene;

/// Redraws a surface that holds `old` so that it holds `new`, writing within the proposed rectangles only: x, y, width,
/// height for each.
///
/// A refused call changes nothing. An accepted one leaves the new scene's picture in the rectangles, every byte outside
/// as it was, and the scratch all zero; it answers with the least rectangle round them.
pub fn redraw_regions(
    old: &[u8],
    new: &[u8],
    mask: Option<&[u8]>,
    proposal: &[i32],
    surface: &mut [u8],
    scratch: &mut [i32],
) -> Answer {
    let (old, new) = match redraw::check(old, new, mask, surface, scratch) {
        Ok(scenes) => scenes,
        Err(refusal) => return refusal,
    };
    let rectangles = match accepted(&old, &new, proposal) {
        Some(rectangles) => rectangles,
        None => return Answer::refused(ILLEGAL_ARGUMENT, NO_DRAW, FIRST_SCENE),
    };
    rectangles.iter().for_each(|rectangle| store(&new, mask, rectangle.rectangle(), surface));
    scratch.fill(0);
    let round = rectangles.into_iter().reduce(Bounds::join).expect("one rectangle at least");
    Answer::accepted(round.rectangle())
}

/// The rectangles of a proposal that is accepted: 1 to 4 and none in part, all in the surface, no pixel in two of them,
/// and each pixel of each box, old and new, of a changed draw in one, or the whole surface if the background differs.
pub(crate) fn accepted(old: &Scene, new: &Scene, proposal: &[i32]) -> Option<Vec<Bounds>> {
    if proposal.len() % 4 != 0 || !(1..=4).contains(&(proposal.len() / 4)) {
        return None;
    }
    let (width, height) = (i64::from(new.width), i64::from(new.height));
    let rectangles: Vec<Bounds> = proposal.chunks(4).map(in_surface(width, height)).collect::<Option<_>>()?;
    let mut times = vec![0; (width * height) as usize];
    for rectangle in &rectangles {
        pixels(rectangle, width).for_each(|pixel| times[pixel] += 1);
    }
    let covered = if old.background == new.background {
        redraw::changed_boxes(old, new).iter().all(|bounds| pixels(bounds, width).all(|pixel| times[pixel] > 0))
    } else {
        times.iter().all(|&times| times > 0)
    };
    (covered && times.iter().all(|&times| times <= 1)).then_some(rectangles)
}

/// Four numbers as a rectangle, if it has a pixel and lies in the surface.
fn in_surface(width: i64, height: i64) -> impl Fn(&[i32]) -> Option<Bounds> {
    move |numbers| {
        let [x, y, w, h] = [numbers[0], numbers[1], numbers[2], numbers[3]].map(i64::from);
        let lies = x >= 0 && y >= 0 && w > 0 && h > 0 && x + w <= width && y + h <= height;
        lies.then_some(Bounds { left: x, right: x + w - 1, bottom: y, top: y + h - 1 })
    }
}

/// The numbers of the pixels of a box on a surface of that width.
fn pixels(bounds: &Bounds, width: i64) -> impl Iterator<Item = usize> {
    let Bounds { left, right, bottom, top } = *bounds;
    (bottom..=top).flat_map(move |y| (left..=right).map(move |x| (y * width + x) as usize))
}
