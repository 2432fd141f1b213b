//! The picture's size, and the map from the root's user units to its pixels.

use crate::affine::Affine;
use crate::length::{Axis, Length, Viewport};
use crate::scanner::all_numbers;
use crate::xml::Element;

/// The surface and how the root's units lie on it.
#[derive(Clone, Copy, Debug, PartialEq)]
pub struct Page {
    /// In pixels.
    pub width: u16,
    pub height: u16,
    /// From user units to pixels, row 0 at the top.
    pub map: Affine,
    /// What percentages are of.
    pub viewport: Viewport,
}

/// The longest side of a surface.
const MOST_PIXELS: f64 = 1_024.0;
/// A side that is longer than a whole number by no more than this is not rounded up.
const SLACK: f64 = 1.0 / 256.0;

/// The page of a root element; `size` in pixels goes before its width and height.
pub fn page(root: &Element, size: Option<(u16, u16)>) -> Result<Page, String> {
    let view_box = view_box(root)?;
    let side = |name, axis| side(root, name, axis, view_box);
    let (width, height) = match size {
        Some((width, height)) => (f64::from(width), f64::from(height)),
        None => (side("width", Axis::X)?, side("height", Axis::Y)?),
    };
    let [x, y, across, down] = match view_box {
        Some(view_box) => view_box,
        None => [0.0, 0.0, side("width", Axis::X)?, side("height", Axis::Y)?],
    };
    let map = alignment(root)?.map((width, height), (across, down)).after(&Affine::translation(-x, -y));
    Ok(Page { width: pixels(width)?, height: pixels(height)?, map, viewport: Viewport { width: across, height: down } })
}

fn view_box(root: &Element) -> Result<Option<[f64; 4]>, String> {
    let text = match root.attribute("viewBox") {
        None => return Ok(None),
        Some(text) => text,
    };
    match all_numbers(text).as_deref() {
        Some(&[x, y, width, height]) if width > 0.0 && height > 0.0 => Ok(Some([x, y, width, height])),
        _ => Err(format!("viewBox '{text}' is not four numbers, the last two above 0")),
    }
}

/// A side in user units of 1/96 inch; without one the view box has it.
fn side(root: &Element, name: &str, axis: Axis, view_box: Option<[f64; 4]>) -> Result<f64, String> {
    let whole = view_box.map(|[_, _, width, height]| Viewport { width, height });
    let length = match root.attribute(name) {
        None | Some("auto") => Length::Share(1.0),
        Some(text) => Length::read(text).map_err(|what| format!("{name}: {what}"))?,
    };
    match (length, whole) {
        (Length::Share(_), None) => Err(format!("{name} is not given, and there is no viewBox: give --size")),
        (length, whole) => Ok(length.units(axis, &whole.unwrap_or(Viewport { width: 0.0, height: 0.0 }))),
    }
}

/// A side in whole pixels.
fn pixels(side: f64) -> Result<u16, String> {
    let whole = (side - SLACK).ceil();
    if (1.0..=MOST_PIXELS).contains(&whole) {
        Ok(whole as u16)
    } else {
        Err(format!("the picture is {side} pixels wide or high; a scene has 1 to 1,024: give --size"))
    }
}

/// How the view box lies on the surface: stretched, or in one scale and where.
enum Alignment {
    Stretched,
    /// Whether it covers all of the surface, and the share of what is left before it on both axes.
    Kept {
        slice: bool,
        x: f64,
        y: f64,
    },
}

fn alignment(root: &Element) -> Result<Alignment, String> {
    let text = root.attribute("preserveAspectRatio").unwrap_or("xMidYMid meet");
    let unknown = || format!("preserveAspectRatio '{text}' cannot be read");
    let words: Vec<&str> = text.split_whitespace().collect();
    let (place, slice) = match words[..] {
        [place] | [place, "meet"] => (place, false),
        [place, "slice"] => (place, true),
        _ => return Err(unknown()),
    };
    if place == "none" {
        return Ok(Alignment::Stretched);
    }
    let share = |word: &str| match word {
        "Min" => Some(0.0),
        "Mid" => Some(0.5),
        "Max" => Some(1.0),
        _ => None,
    };
    let (x, y) = place.strip_prefix('x').and_then(|rest| rest.split_once('Y')).ok_or_else(unknown)?;
    match (share(x), share(y)) {
        (Some(x), Some(y)) => Ok(Alignment::Kept { slice, x, y }),
        _ => Err(unknown()),
    }
}

impl Alignment {
    /// The map from a rectangle at the origin to another.
    fn map(&self, (width, height): (f64, f64), (across, down): (f64, f64)) -> Affine {
        let (by_width, by_height) = (width / across, height / down);
        match *self {
            Alignment::Stretched => Affine::scale(by_width, by_height),
            Alignment::Kept { slice, x, y } => {
                let scale = if slice { by_width.max(by_height) } else { by_width.min(by_height) };
                let left = Affine::translation(x * (width - scale * across), y * (height - scale * down));
                left.after(&Affine::scale(scale, scale))
            }
        }
    }
}

#[cfg(test)]
mod tests {
    use super::*;
    use crate::xml;

    fn page_of(attributes: &str, size: Option<(u16, u16)>) -> Result<Page, String> {
        page(&xml::read(format!("<svg {attributes}/>").as_bytes()).expect("a document"), size)
    }

    #[test]
    fn sizes() {
        let size = |attributes: &str| page_of(attributes, None).map(|page| (page.width, page.height, page.map));
        assert_eq!(size("width='20' height='10px'"), Ok((20, 10, Affine::IDENTITY)));
        assert_eq!(size("viewBox='0 0 20 10'"), Ok((20, 10, Affine::IDENTITY)));
        let half = Affine::scale(0.5, 0.5).after(&Affine::translation(-2.0, -4.0));
        assert_eq!(size("viewBox='2 4 20 10' width='10' height='5'"), Ok((10, 5, half)));
        assert_eq!(
            size("width='100mm' height='1in' viewBox='0 0 100 25.4'").map(|(width, height, _)| (width, height)),
            Ok((378, 96))
        );
        assert!(size("width='20'").unwrap_err().starts_with("height is not given"));
        assert!(size("width='1025' height='1'").unwrap_err().starts_with("the picture is 1025 pixels"));
        assert!(size("width='0' height='1'").is_err());
        assert!(size("viewBox='0 0 1'").is_err());
    }

    #[test]
    fn the_view_box_on_another_size() {
        let at = |aspect: &str, point| {
            let attributes = format!("viewBox='0 0 10 10' preserveAspectRatio='{aspect}'");
            page_of(&attributes, Some((40, 20))).map(|page| page.map.apply(point))
        };
        assert_eq!(at("xMidYMid meet", (0.0, 0.0)), Ok((10.0, 0.0)));
        assert_eq!(at("xMinYMax", (10.0, 10.0)), Ok((20.0, 20.0)));
        assert_eq!(at("xMidYMin slice", (10.0, 10.0)), Ok((40.0, 40.0)));
        assert_eq!(at("none", (10.0, 10.0)), Ok((40.0, 20.0)));
        assert!(at("middle", (0.0, 0.0)).is_err());
    }
}
