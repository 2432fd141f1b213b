//! What a shape is filled with: a colour or a gradient, in pixels of the surface.

use scene::{Draw, PaintType, Spread, Stop};

use crate::affine::{Affine, Point};
use crate::color::Color;
use crate::ids::Ids;
use crate::length::{share, Axis, Length, Viewport};
use crate::outline::Bounds;
use crate::style::{url, Style};
use crate::xml::Element;

/// What a gradient needs to know of the shape that it fills.
pub struct Place<'a> {
    pub ids: &'a Ids<'a>,
    pub viewport: Viewport,
    /// The shape in its own units.
    pub bounds: Bounds,
    /// From these units to the surface, row 0 at the bottom.
    pub map: Affine,
    /// The product of all opacities.
    pub opacity: f64,
}

const MOST_LINEAR: f64 = 4_096.0;
const MOST_RADIAL: f64 = 1_024.0;

/// A draw with the fill of a style and nothing else; none if there is no fill.
pub fn fill(style: &Style, place: &Place) -> Result<Option<Draw>, String> {
    let current = style.get("color").map_or(Ok(Color::BLACK), |color| Color::read(color, Color::BLACK))?;
    match style.get("fill").unwrap_or("black") {
        "none" => Ok(None),
        value => match url(value) {
            None => {
                Ok(Some(plain(Color::read(value, current).map_err(|what| format!("fill: {what}"))?, place.opacity)))
            }
            Some((id, fallback)) => match place.ids.get(id) {
                Some(server) => gradient(server, place, current),
                None if fallback == "none" => Ok(None),
                None if !fallback.is_empty() => Ok(Some(plain(Color::read(fallback, current)?, place.opacity))),
                None => Err(format!("fill '{value}' refers to nothing")),
            },
        },
    }
}

fn plain(color: Color, opacity: f64) -> Draw {
    Draw { color: color.channels(opacity), ..Draw::default() }
}

/// A gradient and those that it takes its attributes and stops from.
struct Gradient<'a> {
    chain: Vec<&'a Element>,
    place: &'a Place<'a>,
    /// Whether its numbers are shares of the shape's bounds.
    by_bounds: bool,
}

fn gradient(server: &Element, place: &Place, current: Color) -> Result<Option<Draw>, String> {
    if !matches!(server.name.as_str(), "linearGradient" | "radialGradient") {
        return Err(format!("{} as a fill cannot be held", server.label()));
    }
    let gradient = Gradient::new(server, place)?;
    let about = |what: String| format!("{}: {what}", server.label());
    let stops = gradient.stops(current).map_err(about)?;
    let flat = place.bounds.width() <= 0.0 || place.bounds.height() <= 0.0;
    match &stops[..] {
        [] => Ok(None),
        _ if gradient.by_bounds && flat => Ok(None),
        [only] => Ok(Some(Draw { color: only.color, ..Draw::default() })),
        _ => gradient.draw(server, stops).map(Some).map_err(about),
    }
}

impl<'a> Gradient<'a> {
    fn new(server: &'a Element, place: &'a Place) -> Result<Gradient<'a>, String> {
        let mut chain = vec![server];
        while let Some(reference) = chain.last().and_then(|element| element.reference()) {
            let next = reference.strip_prefix('#').and_then(|id| place.ids.get(id));
            match next {
                Some(next) if !chain.iter().any(|before| std::ptr::eq(*before, next)) => chain.push(next),
                Some(_) => return Err(format!("{} refers to itself", server.label())),
                None => return Err(format!("{} refers to '{reference}', which is not there", server.label())),
            }
        }
        let mut gradient = Gradient { chain, place, by_bounds: true };
        gradient.by_bounds = match gradient.attribute("gradientUnits") {
            None | Some("objectBoundingBox") => true,
            Some("userSpaceOnUse") => false,
            Some(other) => return Err(format!("{}: gradientUnits '{other}' are not known", server.label())),
        };
        Ok(gradient)
    }

    fn attribute(&self, name: &str) -> Option<&'a str> {
        self.chain.iter().find_map(|element| element.attribute(name))
    }

    /// A length in the gradient's units.
    fn length(&self, name: &str, axis: Axis) -> Result<Option<f64>, String> {
        let text = match self.attribute(name) {
            None => return Ok(None),
            Some(text) => text,
        };
        match Length::read(text) {
            Ok(Length::Share(share)) if self.by_bounds => Ok(Some(share)),
            Ok(length) => Ok(Some(length.units(axis, &self.place.viewport))),
            Err(what) => Err(format!("{name}: {what}")),
        }
    }

    /// A length, or else a share of what its axis has.
    fn length_or(&self, name: &str, axis: Axis, share: f64) -> Result<f64, String> {
        let otherwise = if self.by_bounds { share } else { Length::Share(share).units(axis, &self.place.viewport) };
        Ok(self.length(name, axis)?.unwrap_or(otherwise))
    }

    /// From the gradient's units to the surface.
    fn map(&self) -> Result<Affine, String> {
        let own = crate::affine::transform(self.attribute("gradientTransform").unwrap_or(""))?;
        let units = if self.by_bounds { self.place.bounds.unit_map() } else { Affine::IDENTITY };
        Ok(self.place.map.after(&units).after(&own))
    }

    fn spread(&self) -> Result<Spread, String> {
        match self.attribute("spreadMethod") {
            None | Some("pad") => Ok(Spread::Pad),
            Some("repeat") => Ok(Spread::Repeat),
            Some("reflect") => Ok(Spread::Reflect),
            Some(other) => Err(format!("spreadMethod '{other}' is not known")),
        }
    }

    /// The stops of the first in the chain that has some; offsets never fall.
    fn stops(&self, current: Color) -> Result<Vec<Stop>, String> {
        let is_stop = |element: &&Element| element.is_svg && element.name == "stop";
        let owner = self.chain.iter().find(|element| element.children.iter().any(|child| is_stop(&child)));
        let mut stops: Vec<Stop> = Vec::new();
        for element in owner.iter().flat_map(|owner| owner.children.iter()).filter(is_stop) {
            let style = Style::default().of(element);
            let offset = share(element.attribute("offset").unwrap_or("0"))? as f32;
            let offset = stops.last().map_or(offset, |before| before.offset.max(offset));
            let color = Color::read(style.get("stop-color").unwrap_or("black"), current)?;
            let opacity = share(style.get("stop-opacity").unwrap_or("1"))?;
            stops.push(Stop { offset, color: color.channels(opacity * self.place.opacity) });
        }
        Ok(stops)
    }

    fn draw(&self, server: &Element, stops: Vec<Stop>) -> Result<Draw, String> {
        let radial = server.name == "radialGradient";
        let most = if radial { 31 } else { 32 };
        if stops.len() > most {
            return Err(format!("{} stops; a draw holds {most} of this paint", stops.len()));
        }
        let last = stops[stops.len() - 1].color;
        let draw = Draw { spread: self.spread()?, stops, ..Draw::default() };
        let values = if radial { self.radial()? } else { self.linear()? };
        Ok(match values {
            Values::Collapsed => Draw { color: last, ..Draw::default() },
            Values::Linear(linear) => Draw { paint: PaintType::Linear, linear, ..draw },
            Values::Radial(radial) => Draw { paint: PaintType::Radial, radial, ..draw },
        })
    }

    /// The line's ends on the surface. Under a map that slants, the ends stand so that the colours still go along the
    /// mapped lines of one colour.
    fn linear(&self) -> Result<Values, String> {
        let from = (self.length_or("x1", Axis::X, 0.0)?, self.length_or("y1", Axis::Y, 0.0)?);
        let to = (self.length_or("x2", Axis::X, 1.0)?, self.length_or("y2", Axis::Y, 0.0)?);
        let map = self.map()?;
        let along = (to.0 - from.0, to.1 - from.1);
        let length = along.0 * along.0 + along.1 * along.1;
        let determinant = map.determinant();
        if length == 0.0 || determinant == 0.0 {
            return Ok(Values::Collapsed);
        }
        // The offset grows by `slope` from pixel to pixel: the inverse map's transpose of `along`, over its square.
        let slope = (
            (map.d * along.0 - map.b * along.1) / (determinant * length),
            (map.a * along.1 - map.c * along.0) / (determinant * length),
        );
        let square = slope.0 * slope.0 + slope.1 * slope.1;
        let start = map.apply(from);
        let end = (start.0 + slope.0 / square, start.1 + slope.1 / square);
        limited([start.0, start.1, end.0, end.1], MOST_LINEAR).map(Values::Linear)
    }

    /// The circle on the surface, if it stays one.
    fn radial(&self) -> Result<Values, String> {
        let center = (self.length_or("cx", Axis::X, 0.5)?, self.length_or("cy", Axis::Y, 0.5)?);
        let radius = self.length_or("r", Axis::Both, 0.5)?;
        let focus = (self.length("fx", Axis::X)?.unwrap_or(center.0), self.length("fy", Axis::Y)?.unwrap_or(center.1));
        if self.length("fr", Axis::Both)?.unwrap_or(0.0) != 0.0 {
            return Err("a focal circle, fr, cannot be held".to_string());
        }
        if radius < 0.0 {
            return Err("r is below 0".to_string());
        }
        let map = self.map()?;
        if radius == 0.0 || map.determinant() == 0.0 {
            return Ok(Values::Collapsed);
        }
        let scale = map.similarity().ok_or("an ellipse or a slanted circle cannot be held, only a circle")?;
        let (center, focus) = (map.apply(center), map.apply(focus));
        let values = limited([center.0, center.1, focus.0, focus.1, radius * scale], MOST_RADIAL)?;
        focal_point_allowed(values)
            .then_some(Values::Radial(values))
            .ok_or_else(|| "the focal point is not within the circle".to_string())
    }
}

/// A gradient on the surface.
enum Values {
    /// The last colour everywhere.
    Collapsed,
    Linear([f32; 4]),
    Radial([f32; 5]),
}

/// Values as the file holds them, within their limit.
fn limited<const N: usize>(values: [f64; N], most: f64) -> Result<[f32; N], String> {
    match values.iter().find(|value| !(value.abs() <= most)) {
        Some(value) => Err(format!("a point or radius of {value:.1} pixels; at most {most} are held")),
        None => Ok(values.map(|value| value as f32)),
    }
}

/// Whether the focal point lies within the circle in the format's sixteenths of a pixel.
fn focal_point_allowed(values: [f32; 5]) -> bool {
    let [cx, cy, fx, fy, r] = values.map(|value| (16.0 * f64::from(value) + 0.5).floor());
    let off: Point = (fx - cx, fy - cy);
    r <= 0.0 || off.0 * off.0 + off.1 * off.1 < r * r
}
