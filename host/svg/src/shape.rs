//! The outlines of SVG's shapes.

use crate::length::{Axis, Length, Viewport};
use crate::outline::Outline;
use crate::path_data;
use crate::scanner::all_numbers;
use crate::xml::Element;

/// The names of elements that have an outline.
pub const SHAPES: [&str; 6] = ["path", "rect", "circle", "ellipse", "polygon", "polyline"];

/// The outline of a shape in its own units, empty if there is nothing to fill, or what of it cannot be held or read.
pub fn outline(element: &Element, viewport: &Viewport) -> Result<Outline, String> {
    match element.name.as_str() {
        "path" => path_data::outline(element.attribute("d").unwrap_or("")),
        "rect" => rectangle(element, viewport),
        "circle" => {
            let radius = length(element, "r", Axis::Both, viewport)?.unwrap_or(0.0);
            ellipse(element, viewport, radius, radius)
        }
        "ellipse" => {
            let across = length(element, "rx", Axis::X, viewport)?;
            let down = length(element, "ry", Axis::Y, viewport)?;
            ellipse(element, viewport, across.or(down).unwrap_or(0.0), down.or(across).unwrap_or(0.0))
        }
        _ => polygon(element.attribute("points").unwrap_or("")),
    }
}

/// An attribute that is a length; none if it is not there, or `auto`.
fn length(element: &Element, name: &str, axis: Axis, viewport: &Viewport) -> Result<Option<f64>, String> {
    match element.attribute(name) {
        None | Some("auto") => Ok(None),
        Some(text) => match Length::read(text) {
            Ok(length) => Ok(Some(length.units(axis, viewport))),
            Err(what) => Err(format!("{name}: {what}")),
        },
    }
}

/// A rectangle's corner and size, before its corners are rounded.
pub fn rectangle_sides(element: &Element, viewport: &Viewport) -> Result<[f64; 4], String> {
    let side = |name, axis| Ok::<f64, String>(length(element, name, axis, viewport)?.unwrap_or(0.0));
    let sides = [side("x", Axis::X)?, side("y", Axis::Y)?, side("width", Axis::X)?, side("height", Axis::Y)?];
    if sides[2] < 0.0 || sides[3] < 0.0 {
        return Err("width or height is below 0".to_string());
    }
    Ok(sides)
}

/// The radii of a rectangle's corners along both axes.
pub fn corner_radii(element: &Element, viewport: &Viewport) -> Result<(f64, f64), String> {
    let [_, _, width, height] = rectangle_sides(element, viewport)?;
    let across = length(element, "rx", Axis::X, viewport)?;
    let down = length(element, "ry", Axis::Y, viewport)?;
    let (rx, ry) = (across.or(down).unwrap_or(0.0), down.or(across).unwrap_or(0.0));
    if rx < 0.0 || ry < 0.0 {
        return Err("rx or ry is below 0".to_string());
    }
    Ok((rx.min(width / 2.0), ry.min(height / 2.0)))
}

fn rectangle(element: &Element, viewport: &Viewport) -> Result<Outline, String> {
    let [x, y, width, height] = rectangle_sides(element, viewport)?;
    let (rx, ry) = corner_radii(element, viewport)?;
    let mut outline = Outline::default();
    if width == 0.0 || height == 0.0 {
        return Ok(outline);
    }
    let (right, bottom) = (x + width, y + height);
    if rx == 0.0 || ry == 0.0 {
        outline.move_to((x, y));
        [(right, y), (right, bottom), (x, bottom)].into_iter().for_each(|corner| outline.line_to(corner));
        outline.close();
        return Ok(outline);
    }
    outline.move_to((x + rx, y));
    outline.line_to((right - rx, y));
    outline.quarter((right - rx, y), (right, y + ry), true);
    outline.line_to((right, bottom - ry));
    outline.quarter((right, bottom - ry), (right - rx, bottom), false);
    outline.line_to((x + rx, bottom));
    outline.quarter((x + rx, bottom), (x, bottom - ry), true);
    outline.line_to((x, y + ry));
    outline.quarter((x, y + ry), (x + rx, y), false);
    outline.close();
    Ok(outline)
}

/// Four curves.
fn ellipse(element: &Element, viewport: &Viewport, rx: f64, ry: f64) -> Result<Outline, String> {
    if rx < 0.0 || ry < 0.0 {
        return Err("a radius is below 0".to_string());
    }
    let x = length(element, "cx", Axis::X, viewport)?.unwrap_or(0.0);
    let y = length(element, "cy", Axis::Y, viewport)?.unwrap_or(0.0);
    let mut outline = Outline::default();
    if rx == 0.0 || ry == 0.0 {
        return Ok(outline);
    }
    let (right, bottom, left, top) = ((x + rx, y), (x, y + ry), (x - rx, y), (x, y - ry));
    outline.move_to(right);
    outline.quarter(right, bottom, false);
    outline.quarter(bottom, left, true);
    outline.quarter(left, top, false);
    outline.quarter(top, right, true);
    outline.close();
    Ok(outline)
}

fn polygon(points: &str) -> Result<Outline, String> {
    let numbers = all_numbers(points).ok_or_else(|| format!("points '{points}' are not all numbers"))?;
    if numbers.len() % 2 == 1 {
        return Err(format!("points are {} numbers, which is odd", numbers.len()));
    }
    let mut outline = Outline::default();
    for (i, point) in numbers.chunks(2).enumerate() {
        let to = (point[0], point[1]);
        if i == 0 {
            outline.move_to(to);
        } else {
            outline.line_to(to);
        }
    }
    if !numbers.is_empty() {
        outline.close();
    }
    Ok(outline)
}
