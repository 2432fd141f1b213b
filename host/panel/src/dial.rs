//! What the two dials have in common: the housing, marks and numbers, needles, the hub, and the glass.

use crate::canvas::{faces_light, light_angle, towards_light, Canvas, Color, Paint, Stops};
use crate::font;
use crate::part::Part;
use crate::shape::{on_circle, Point, Shape};

/// The outermost circle of the rim, and the circle where the face begins.
pub const RADIUS: f64 = 194.0;
const FACE: f64 = RADIUS - 16.0;
/// How far the housing's shadow reaches beyond the rim, and how far it is moved away from the light.
const SHADOW_REACH: f64 = 18.0;
const SHADOW_SHIFT: f64 = 8.0;
const SHADOW: Color = 0x000000D0;
const NO_SHADOW: Color = 0x00000000;

/// The radial rim: its focal point is near the light, so that it is bright there and dark on the other side.
const RIM_LEAN: f64 = 0.42;
const RIM_STOPS: Stops = &[
    (0.84, 0x0B0D0FFF),
    (0.87, 0x2B3037FF),
    (0.885, 0x8D96A1FF),
    (0.915, 0xF3F6F9FF),
    (0.94, 0x99A2ADFF),
    (0.965, 0x4A515AFF),
    (0.985, 0x7A828CFF),
    (1.0, 0x23272CFF),
];
const FACE_LEAN: f64 = 0.3;
const FACE_STOPS: Stops =
    &[(0.0, 0x2B333DFF), (0.45, 0x1A2027FF), (0.8, 0x11151AFF), (0.93, 0x0B0D10FF), (1.0, 0x040506FF)];

const PRINT: Color = 0xF2F5F8FF;

/// A scale round a centre.
pub struct Scale {
    pub center: Point,
    pub greatest: f64,
    /// Angles in degrees, counter-clockwise from the right, of 0 and of the greatest value.
    pub first_angle: f64,
    pub last_angle: f64,
    /// The outer ends of the marks.
    pub radius: f64,
}

/// Marks at every step: short, middle and long ones.
pub struct Marks {
    pub step: f64,
    /// Steps between two middle marks, and between two long ones.
    pub middle: i32,
    pub long: i32,
}

/// Lengths and widths of short, middle and long marks.
const MARK_SIZES: [(f64, f64); 3] = [(10.0, 2.0), (15.0, 2.8), (21.0, 4.8)];

/// The numbers' step and height, and the circle that they touch from within.
pub struct Numbers {
    pub step: f64,
    pub height: f64,
    pub radius: f64,
}

impl Scale {
    pub fn angle(&self, value: f64) -> f64 {
        self.first_angle + (self.last_angle - self.first_angle) * value / self.greatest
    }

    /// Appends the marks.
    pub fn marks(&self, shape: Shape, marks: &Marks) -> Shape {
        let count = (self.greatest / marks.step).round() as i32;
        (0..=count).fold(shape, |shape, i| {
            let size = usize::from(i % marks.middle == 0) + usize::from(i % marks.long == 0);
            let (length, width) = MARK_SIZES[size];
            let angle = self.angle(f64::from(i) * marks.step);
            shape.tick(self.center, self.radius - length, self.radius, width, angle)
        })
    }

    /// The numbers, each a shape of its own.
    pub fn numbers<'a>(&'a self, numbers: &'a Numbers) -> impl Iterator<Item = Shape> + 'a {
        let count = (self.greatest / numbers.step).floor() as i32;
        (0..=count).map(move |i| self.number(numbers, f64::from(i) * numbers.step))
    }

    /// A number within the ellipse that its width and height span, which touches the numbers' circle.
    fn number(&self, numbers: &Numbers, value: f64) -> Shape {
        let text = value.to_string();
        let (sin, cos) = self.angle(value).to_radians().sin_cos();
        let reach = (font::width(&text, numbers.height) * cos).hypot(numbers.height * sin) / 2.0;
        let middle = on_circle(self.center, numbers.radius - reach, self.angle(value));
        Shape::new().text(&text, middle, numbers.height)
    }
}

/// A shadow on the board, the rim, and the face.
pub fn housing(canvas: &mut Canvas, center: Point) {
    Part::Housing.begin(canvas);
    let reach = RADIUS + SHADOW_REACH;
    let under = towards_light(center, -SHADOW_SHIFT);
    let edge = ((RADIUS - SHADOW_REACH) / reach) as f32;
    let shadow = [(edge, SHADOW), (1.0, NO_SHADOW)];
    canvas.fill(Shape::new().circle(under, reach), Paint::glow(under, reach, &shadow));
    canvas.fill(Shape::new().ring(center, RADIUS, FACE), Paint::dome(center, RADIUS, RIM_LEAN, RIM_STOPS));
    canvas.fill(Shape::new().circle(center, FACE), Paint::dome(center, FACE, FACE_LEAN, FACE_STOPS));
}

/// Marks and numbers, in the colour of the face's print.
pub fn print(canvas: &mut Canvas, shapes: impl IntoIterator<Item = Shape>) {
    canvas.fill_all(shapes, Paint::Color(PRINT));
}

/// The units' height, how far above the hub they are, and their colour.
pub const UNIT_HEIGHT: f64 = 18.0;
pub const UNIT_RISE: f64 = 62.0;
const UNIT_COLOR: Color = 0xA9B3BFFF;

/// What the dials measure.
pub fn units(canvas: &mut Canvas, shapes: impl IntoIterator<Item = Shape>) {
    Part::Print.begin(canvas);
    canvas.fill_all(shapes, Paint::Color(UNIT_COLOR));
}

/// A needle that points to the right from the origin.
pub struct Needle {
    pub shape: Shape,
    /// Half of its width where it is widest.
    pub half: f64,
}

/// The colours of a needle's flank towards the light, and of the other.
const NEEDLE_LIT: Color = 0xFF7448FF;
const NEEDLE_UNLIT: Color = 0xD8290FFF;
/// How far a needle's shadow falls, and its colour.
const NEEDLE_HEIGHT: f64 = 7.0;
const NEEDLE_SHADOW: Color = 0x00000080;

impl Needle {
    pub fn shadow(&self, canvas: &mut Canvas, center: Point, angle: f64) {
        let under = towards_light(center, -NEEDLE_HEIGHT);
        canvas.fill_turned(self.shape.clone(), Paint::Color(NEEDLE_SHADOW), angle, under);
    }

    /// The needle, with a ridge between its flanks.
    pub fn draw(&self, canvas: &mut Canvas, center: Point, angle: f64) {
        let left = on_circle((0.0, 0.0), self.half, angle + 90.0);
        let side = if faces_light(left) { 1.0 } else { -1.0 };
        let from = (center.0 + side * left.0, center.1 + side * left.1);
        let to = (center.0 - side * left.0, center.1 - side * left.1);
        let stops = [(0.5, NEEDLE_LIT), (0.5, NEEDLE_UNLIT)];
        canvas.fill_turned(self.shape.clone(), Paint::Linear { from, to, stops: &stops }, angle, center);
    }
}

const HUB: f64 = 25.0;
const HUB_LEAN: f64 = 0.5;
const HUB_STOPS: Stops = &[
    (0.0, 0xD5DBE2FF),
    (0.12, 0x9AA2ADFF),
    (0.5, 0x3B424AFF),
    (0.8, 0x1C2025FF),
    (0.9, 0x0B0C0EFF),
    (1.0, 0x2E343BFF),
];

/// The cap over the needles' pivot.
pub fn hub(canvas: &mut Canvas, center: Point) {
    Part::Housing.begin(canvas);
    canvas.fill(Shape::new().circle(center, HUB), Paint::dome(center, HUB, HUB_LEAN, HUB_STOPS));
}

/// The reflection in the glass: a crescent towards the light, so many degrees long to either side.
const GLASS: f64 = FACE - 3.0;
const GLASS_SPAN: f64 = 78.0;
/// How far from the light the centre of the crescent's inner side is, as a share of the radius.
const GLASS_HOLLOW: f64 = 0.75;
const GLASS_LEAN: f64 = 0.8;
const GLASS_STOPS: Stops = &[(0.0, 0xFFFFFF38), (0.5, 0xE8F0FF1C), (1.0, 0xFFFFFF08)];

pub fn glass(canvas: &mut Canvas, center: Point) {
    Part::Housing.begin(canvas);
    let middle = light_angle();
    let hollow = towards_light(center, -GLASS_HOLLOW * GLASS);
    let end = on_circle(center, GLASS, middle + GLASS_SPAN);
    let (x, y) = (end.0 - hollow.0, end.1 - hollow.1);
    let span = y.atan2(x).to_degrees().rem_euclid(360.0) - middle;
    let crescent = Shape::new()
        .move_to(on_circle(center, GLASS, middle - GLASS_SPAN))
        .arc(center, GLASS, middle - GLASS_SPAN, middle + GLASS_SPAN)
        .arc(hollow, x.hypot(y), middle + span, middle - span);
    canvas.fill(crescent, Paint::dome(center, GLASS, GLASS_LEAN, GLASS_STOPS));
}

/// The row of the middles of the windows with figures, and the windows' form.
pub const WINDOW_ROW: f64 = 185.0;
const WINDOW_HEIGHT: f64 = 58.0;
const WINDOW_CORNER: f64 = 9.0;
const WINDOW_STOPS: Stops = &[(0.0, 0x020303FF), (0.8, 0x0A0E12FF), (1.0, 0x27303AFF)];

/// A sunken window with figures.
pub struct Window {
    pub middle: Point,
    pub width: f64,
}

pub fn windows<'a>(canvas: &mut Canvas, windows: impl IntoIterator<Item = &'a Window>) {
    Part::Housing.begin(canvas);
    let bottom = WINDOW_ROW - WINDOW_HEIGHT / 2.0;
    let shape = windows.into_iter().fold(Shape::new(), |shape, window| {
        let left = window.middle.0 - window.width / 2.0;
        shape.rounded_rectangle(left, bottom, window.width, WINDOW_HEIGHT, WINDOW_CORNER)
    });
    canvas.fill(shape, Paint::rows(bottom + WINDOW_HEIGHT, bottom, WINDOW_STOPS));
}
