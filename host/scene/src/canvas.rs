//! A scene in the making: shapes, texts and paints in pixels of a canvas, brought onto a surface of some scale.

use crate::shape::{self, Point, Shape};
use crate::{font, Draw, Error, PaintType, Scene, Stop, IDENTITY};

/// Where the light comes from, a direction of length 1: from above, a little from the left.
const LIGHT: Point = (-0.6, 0.8);
/// Letters lower than this many pixels of the surface could not be read, and are left out.
const LEGIBLE: f64 = 4.4;

/// A colour as 0xRRGGBBAA.
pub type Color = u32;
/// Offsets and colours.
pub type Stops<'a> = &'a [(f32, Color)];

/// What a shape is filled with.
#[derive(Clone, Copy, Debug)]
pub enum Paint<'a> {
    /// A colour.
    Color(Color),
    /// A gradient from a point to another.
    Linear {
        /// Where offset 0 is.
        from: Point,
        /// Where offset 1 is.
        to: Point,
        /// The colours.
        stops: Stops<'a>,
    },
    /// A gradient from a focal point to the circle round it.
    Radial {
        /// The circle's centre.
        center: Point,
        /// Where offset 0 is, within the circle.
        focus: Point,
        /// The circle's radius; offset 1 is on it.
        radius: f64,
        /// The colours.
        stops: Stops<'a>,
    },
}

impl<'a> Paint<'a> {
    /// From one row to another.
    pub fn rows(from: f64, to: f64, stops: Stops<'a>) -> Paint<'a> {
        Paint::Linear { from: (0.0, from), to: (0.0, to), stops }
    }

    /// From one column to another.
    pub fn columns(from: f64, to: f64, stops: Stops<'a>) -> Paint<'a> {
        Paint::Linear { from: (from, 0.0), to: (to, 0.0), stops }
    }

    /// From the middle of a circle outwards.
    pub fn glow(center: Point, radius: f64, stops: Stops<'a>) -> Paint<'a> {
        Paint::Radial { center, focus: center, radius, stops }
    }

    /// From a highlight within a circle outwards; `lean` is how far towards the light it is, as a share of the radius.
    pub fn dome(center: Point, radius: f64, lean: f64, stops: Stops<'a>) -> Paint<'a> {
        Paint::Radial { center, focus: towards_light(center, lean * radius), radius, stops }
    }
}

/// A point moved towards the light.
pub fn towards_light(point: Point, by: f64) -> Point {
    (point.0 + LIGHT.0 * by, point.1 + LIGHT.1 * by)
}

/// Whether a direction has the light before it.
pub fn faces_light(direction: Point) -> bool {
    direction.0 * LIGHT.0 + direction.1 * LIGHT.1 > 0.0
}

/// The angle of the light in degrees, counter-clockwise from the right.
pub fn light_angle() -> f64 {
    LIGHT.1.atan2(LIGHT.0).to_degrees()
}

/// A scene in the making. What goes wrong first is kept, and [`Canvas::scene`] says it.
#[derive(Clone, Debug)]
pub struct Canvas {
    scale: f64,
    scene: Scene,
    transformation: Option<[f32; 8]>,
    masked: bool,
    error: Option<Error>,
}

impl Canvas {
    /// A canvas of this size in its own pixels; the surface is so many times larger.
    pub fn new((width, height): Point, scale: f64, background: Color) -> Canvas {
        let side = |pixels: f64| (pixels * scale).round() as u16;
        let scene = Scene::new(side(width), side(height), background.to_be_bytes());
        Canvas { scale, scene, transformation: None, masked: false, error: None }
    }

    /// The scene's edition, which is 0 at first. Edition 1 has transformations.
    pub fn set_edition(&mut self, edition: u16) {
        self.scene.edition = edition;
    }

    /// The scene's edition.
    pub fn edition(&self) -> u16 {
        self.scene.edition
    }

    /// The transformation of what is filled from here on, four scales and four biases; none at first, and in edition 0.
    pub fn set_transformation(&mut self, transformation: Option<[f32; 8]>) {
        self.transformation = transformation;
    }

    /// Whether what is filled from here on asks for the mask.
    pub fn set_masked(&mut self, masked: bool) {
        self.masked = masked;
    }

    /// The scene, if nothing went wrong and it keeps the rules of the format.
    pub fn scene(self) -> Result<Scene, Error> {
        match self.error {
            Some(error) => Err(error),
            None => self.scene.judge().map(|()| self.scene),
        }
    }

    /// Fills a shape.
    pub fn fill(&mut self, shape: Shape, paint: Paint) {
        self.fill_turned(shape, paint, 0.0, (0.0, 0.0));
    }

    /// Fills a shape that lies about the origin, turned by an angle in degrees and moved to a point. The paint is not.
    pub fn fill_turned(&mut self, shape: Shape, paint: Paint, degrees: f64, to: Point) {
        if let Some(fault) = shape.fault().or_else(|| shape.excess()) {
            self.error = self.error.or(Some(Error { draw: Some(self.scene.draws.len()), fault }));
            return;
        }
        let unit = self.scale / shape::UNITS;
        let (sin, cos) = degrees.to_radians().sin_cos();
        let matrix = [unit * cos, unit * sin, -unit * sin, unit * cos, to.0 * self.scale, to.1 * self.scale];
        let draw = Draw {
            fill_rule: shape.fill_rule,
            premultiplied_ramp: true,
            masked: self.masked,
            transformed: self.transformation.is_some(),
            transformation: self.transformation.unwrap_or(IDENTITY),
            matrix: matrix.map(|v| v as f32),
            path: shape.path,
            ..self.painted(paint)
        };
        self.scene.draws.push(draw);
    }

    /// Fills several shapes in order, in as few draws as their segments and coordinates allow.
    pub fn fill_all(&mut self, shapes: impl IntoIterator<Item = Shape>, paint: Paint) {
        let mut gathered = Shape::new();
        for shape in shapes {
            gathered = gathered.joined(&shape).unwrap_or_else(|| {
                self.fill(std::mem::take(&mut gathered), paint);
                shape
            });
        }
        self.fill(gathered, paint);
    }

    /// Writes about a middle.
    pub fn write(&mut self, text: &str, middle: Point, height: f64, color: Color) {
        let left = middle.0 - font::width(text, height) / 2.0;
        self.write_all(&[(text, (left, middle.1))], height, color);
    }

    /// Writes texts, each from its left end and the row of its middle, if they can be read at this scale.
    pub fn write_all(&mut self, texts: &[(&str, Point)], height: f64, color: Color) {
        if height * self.scale >= LEGIBLE {
            let letters = texts.iter().flat_map(|&(text, (x, y))| font::letters(text, (x, y - height / 2.0), height));
            self.fill_all(letters, Paint::Color(color));
        }
    }

    /// A draw with a paint and nothing else.
    fn painted(&self, paint: Paint) -> Draw {
        let scaled = |v: f64| (v * self.scale) as f32;
        match paint {
            Paint::Color(color) => Draw { color: rgba(color), ..Draw::default() },
            Paint::Linear { from, to, stops } => Draw {
                paint: PaintType::Linear,
                linear: [from.0, from.1, to.0, to.1].map(scaled),
                stops: ramp(stops),
                ..Draw::default()
            },
            Paint::Radial { center, focus, radius, stops } => Draw {
                paint: PaintType::Radial,
                radial: [center.0, center.1, focus.0, focus.1, radius].map(scaled),
                stops: ramp(stops),
                ..Draw::default()
            },
        }
    }
}

fn ramp(stops: Stops) -> Vec<Stop> {
    stops.iter().map(|&(offset, color)| Stop { offset, color: rgba(color) }).collect()
}

fn rgba(color: Color) -> [f32; 4] {
    color.to_be_bytes().map(|channel| f32::from(channel) / 255.0)
}
