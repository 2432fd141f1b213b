//! Clip paths that are rectangles on whole pixels: the scissors of a draw.

use scene::Scissor;

use crate::affine::{self, Affine};
use crate::length::Viewport;
use crate::outline::Bounds;
use crate::shape::{corner_radii, rectangle_sides};
use crate::style::Style;
use crate::xml::Element;

/// Pixels from `left` to before `right` and from `top` to before `bottom`, row 0 at the top.
#[derive(Clone, Copy, Debug, PartialEq, Eq)]
struct Rectangle {
    left: i64,
    top: i64,
    right: i64,
    bottom: i64,
}

/// What may be drawn: anywhere, or in some rectangles.
#[derive(Clone, Debug, Default, PartialEq, Eq)]
pub struct Clip(Option<Vec<Rectangle>>);

const MOST_SCISSORS: usize = 4;
/// How far from a whole pixel an edge is taken to stand on it.
const SLACK: f64 = 1.0 / 256.0;
/// Edges further off than this are all the same to a surface.
const FAR: f64 = 100_000.0;

impl Clip {
    /// What is allowed by both this and a clip path, in the units of a map to pixels, and what of the clip path cannot
    /// be held exactly.
    pub fn within(&self, path: &Element, viewport: &Viewport, map: &Affine) -> (Clip, Vec<String>) {
        let mut faults = Vec::new();
        let mut rectangles = Vec::new();
        for child in path.children.iter().filter(|child| child.is_svg) {
            if matches!(child.name.as_str(), "title" | "desc" | "metadata") || is_hidden(child) {
                continue;
            }
            match rectangle(path, child, viewport, map) {
                Ok((rectangle, fault)) => {
                    rectangles.push(rectangle);
                    faults.extend(fault);
                }
                Err(what) => {
                    faults.push(format!("clip path: {}: {what}", child.label()));
                    return (self.clone(), faults);
                }
            }
        }
        let both = match &self.0 {
            None => rectangles,
            Some(before) => {
                let pairs = before.iter().flat_map(|a| rectangles.iter().map(move |b| a.common(b)));
                pairs.filter(|rectangle| !rectangle.is_empty()).collect()
            }
        };
        (Clip(Some(both)), faults)
    }

    /// The scissors on a surface of some height, none if scissoring is off.
    pub fn scissors(&self, height: u16) -> Result<Option<Vec<Scissor>>, String> {
        let rectangles = match &self.0 {
            None => return Ok(None),
            Some(rectangles) => rectangles,
        };
        if rectangles.len() > MOST_SCISSORS {
            return Err(format!("{} clip rectangles; a draw holds {MOST_SCISSORS}", rectangles.len()));
        }
        Ok(Some(rectangles.iter().map(|rectangle| rectangle.scissor(height)).collect()))
    }
}

fn is_hidden(element: &Element) -> bool {
    Style::default().of(element).get("display") == Some("none")
}

/// A rectangle of a clip path on the surface, and what of it is not exact.
fn rectangle(
    path: &Element,
    child: &Element,
    viewport: &Viewport,
    map: &Affine,
) -> Result<(Rectangle, Option<String>), String> {
    if child.name != "rect" {
        return Err("cannot be held: only rect clips".to_string());
    }
    if Style::default().of(child).get_unless("clip-path", "none").is_some() {
        return Err("a clip path of a clip path cannot be held".to_string());
    }
    if corner_radii(child, viewport)? != (0.0, 0.0) {
        return Err("round corners cannot be held".to_string());
    }
    let [x, y, width, height] = rectangle_sides(child, viewport)?;
    let own = |element: &Element| affine::transform(element.attribute("transform").unwrap_or(""));
    let map = map.after(&own(path)?).after(&own(child)?);
    if !map.is_axis_aligned() {
        return Err("a turned or slanted rectangle cannot be held".to_string());
    }
    let corners = [map.apply((x, y)), map.apply((x + width, y + height))];
    let bounds = Bounds::of(corners).ok_or("no corners")?;
    let edges = [bounds.min.0, bounds.min.1, bounds.max.0, bounds.max.1].map(|edge| edge.clamp(-FAR, FAR));
    let off = edges.iter().find(|edge| !((**edge - edge.round()).abs() <= SLACK));
    let fault =
        off.map(|edge| format!("clip path: {}: an edge at pixel {edge:.3}; only whole pixels are held", child.label()));
    let [left, top, right, bottom] = edges.map(|edge| edge.round() as i64);
    Ok((Rectangle { left, top, right, bottom }, fault))
}

impl Rectangle {
    fn is_empty(&self) -> bool {
        self.left >= self.right || self.top >= self.bottom
    }

    fn common(&self, other: &Rectangle) -> Rectangle {
        Rectangle {
            left: self.left.max(other.left),
            top: self.top.max(other.top),
            right: self.right.min(other.right),
            bottom: self.bottom.min(other.bottom),
        }
    }

    /// With row 0 at the bottom.
    fn scissor(&self, height: u16) -> Scissor {
        Scissor {
            x: self.left as i32,
            y: (i64::from(height) - self.bottom) as i32,
            width: (self.right - self.left) as i32,
            height: (self.bottom - self.top) as i32,
        }
    }
}
