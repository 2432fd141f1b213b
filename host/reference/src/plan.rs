//! What a planner's proposal has to keep to, judged pixel by pixel and line by line.

use crate::redraw;
use crate::regions;
use crate::rules::{self, Scene};

/// Why a proposal for two accepted scenes of one size is not what is asked of a planner; None where it is.
pub fn fault(old: &[u8], new: &[u8], masked: bool, proposal: &[i32]) -> Option<&'static str> {
    let (old, new) = match (rules::scene(old, masked), rules::scene(new, masked)) {
        (Ok(old), Ok(new)) => (old, new),
        _ => return Some("a scene is refused"),
    };
    let area = redraw::damage(&old, &new);
    if area.width == 0 {
        return (!proposal.is_empty()).then_some("rectangles for an empty area");
    }
    if regions::accepted(&old, &new, proposal).is_none() {
        return Some("the proposal is not accepted");
    }
    let (right, top) = (area.x + area.width, area.y + area.height);
    let inside = |r: &[i32]| {
        let [x, y, w, h] = [r[0] as u32, r[1] as u32, r[2] as u32, r[3] as u32];
        x >= area.x && y >= area.y && x + w <= right && y + h <= top
    };
    if !proposal.chunks(4).all(inside) {
        return Some("a rectangle leaves the area");
    }
    let columns = free(&old, &new, 0, area.x..right);
    let rows = free(&old, &new, 1, area.y..top);
    if old.background != new.background || columns.is_empty() && rows.is_empty() {
        return None;
    }
    let left = |lines: &[u32], axis: usize| lines.iter().any(|&c| !proposal.chunks(4).any(|r| touches(r, axis, c)));
    if proposal.len() < 8 {
        Some("one rectangle where a column or row is free")
    } else if !left(&columns, 0) && !left(&rows, 1) {
        Some("no free column or row is left untouched")
    } else {
        None
    }
}

/// The columns (axis 0) or rows (axis 1) in which no changed draw's box, old or new, has a pixel.
fn free(old: &Scene, new: &Scene, axis: usize, lines: std::ops::Range<u32>) -> Vec<u32> {
    let boxes = redraw::changed_boxes(old, new);
    let has = |c: u32| {
        boxes.iter().any(|b| {
            let (first, last) = [(b.left, b.right), (b.bottom, b.top)][axis];
            (first..=last).contains(&i64::from(c))
        })
    };
    lines.filter(|&c| !has(c)).collect()
}

/// A rectangle has a pixel in the line.
fn touches(rectangle: &[i32], axis: usize, line: u32) -> bool {
    let (start, size) = (rectangle[axis] as u32, rectangle[axis + 2] as u32);
    (start..start + size).contains(&line)
}
