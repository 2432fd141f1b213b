//! Makes scene files, which the library `wayramesh` draws; `docs/FORMAT.md` describes them.
//!
//! - [`Scene`]: a value with named fields. [`Scene::build`] judges it by the rules of the format and writes the file, or says
//!   what is wrong.
//! - [`canvas::Canvas`]: shapes and texts in pixels, with paints, at any scale. It makes a [`Scene`].
//! - [`shape::Shape`], [`stroke::Line`] and [`font`]: circles, rings, bars, lines and letters.
//!
//! ```
//! use wayramesh_scene::canvas::{Canvas, Paint};
//! use wayramesh_scene::shape::Shape;
//!
//! let mut canvas = Canvas::new((64.0, 24.0), 1.0, 0x000000FF);
//! canvas.fill(Shape::new().rounded_rectangle(2.0, 4.0, 60.0, 16.0, 5.0), Paint::Color(0x37E37AFF));
//! canvas.write("42", (32.0, 12.0), 10.0, 0xFFFFFFFF);
//! let file = canvas.scene()?.build()?;
//! assert_eq!(file.len(), 512 * (1 + 4 * 2));
//! # Ok::<(), wayramesh_scene::Error>(())
//! ```
//!
//! Tests need scenes that the rules refuse: [`Scene::bytes`] writes whatever the layout has places for, and bytes that were
//! edited can be [`seal`]ed again.
#![forbid(unsafe_code)]
#![warn(missing_docs)]

pub mod canvas;
mod error;
pub mod font;
mod judge;
pub mod path;
pub mod place;
pub mod shape;
pub mod stroke;

pub use error::{Error, Fault};
pub use path::Path;

/// The bytes of a block: 508 of payload, then its check.
pub const BLOCK: usize = 512;
/// The bytes of a block before its check.
pub const PAYLOAD: usize = 508;
/// The blocks of a draw.
pub const DRAW_BLOCKS: usize = 4;
/// The joined payloads of a draw.
pub const DRAW_BYTES: usize = PAYLOAD * DRAW_BLOCKS;

/// A scene; row 0 is the lowest.
#[derive(Clone, Debug, Default)]
pub struct Scene {
    /// In pixels, 1 to 1,024.
    pub width: u16,
    /// In pixels, 1 to 1,024.
    pub height: u16,
    /// R, G, B, A, not premultiplied.
    pub background: [u8; 4],
    /// 0, or 1, in which draws have a colour transformation and 550 coordinates, not 566. Others have 0's layout.
    pub edition: u16,
    /// In the order in which they are drawn, at most 64.
    pub draws: Vec<Draw>,
}

/// What of a path is inside.
#[derive(Clone, Copy, Debug, Default, PartialEq, Eq)]
pub enum FillRule {
    /// What edges surround an odd number of times: a part within another is a hole.
    #[default]
    EvenOdd,
    /// What edges surround, up and down counted against each other: parts that overlap are one.
    NonZero,
}

/// How a paint and what is there become one.
#[derive(Clone, Copy, Debug, Default, PartialEq, Eq)]
pub enum Blend {
    /// The paint.
    Src,
    /// The paint, and what is there where the paint is not opaque.
    #[default]
    SrcOver,
    /// What is there, and the paint where that is not opaque.
    DstOver,
    /// The paint as far as what is there is opaque.
    SrcIn,
    /// What is there as far as the paint is opaque.
    DstIn,
}

impl Blend {
    /// All of them, in the order of their numbers.
    pub const ALL: [Blend; 5] = [Blend::Src, Blend::SrcOver, Blend::DstOver, Blend::SrcIn, Blend::DstIn];
}

/// Which of a draw's paints is used.
#[derive(Clone, Copy, Debug, Default, PartialEq, Eq)]
pub enum PaintType {
    /// A colour.
    #[default]
    Color,
    /// A gradient from a point to another.
    Linear,
    /// A gradient from a focal point to a circle.
    Radial,
}

impl PaintType {
    /// All of them, in the order of their numbers.
    pub const ALL: [PaintType; 3] = [PaintType::Color, PaintType::Linear, PaintType::Radial];
}

/// What a gradient does beyond its ends.
#[derive(Clone, Copy, Debug, Default, PartialEq, Eq)]
pub enum Spread {
    /// It keeps its last colour.
    #[default]
    Pad,
    /// It begins again.
    Repeat,
    /// It turns back.
    Reflect,
}

impl Spread {
    /// All of them, in the order of their numbers.
    pub const ALL: [Spread; 3] = [Spread::Pad, Spread::Repeat, Spread::Reflect];
}

/// A rectangle of pixels; one whose width or height is not above 0 has none.
#[derive(Clone, Copy, Debug, Default, PartialEq, Eq)]
pub struct Scissor {
    /// The left column.
    pub x: i32,
    /// The lowest row.
    pub y: i32,
    /// The number of columns.
    pub width: i32,
    /// The number of rows.
    pub height: i32,
}

/// A place of a gradient, and its colour there.
#[derive(Clone, Copy, Debug, Default, PartialEq)]
pub struct Stop {
    /// 0 to 1, and not below the one before.
    pub offset: f32,
    /// R, G, B, A, not premultiplied.
    pub color: [f32; 4],
}

/// The transformation that changes no premultiplied colour.
pub const IDENTITY: [f32; 8] = [1.0, 1.0, 1.0, 1.0, 0.0, 0.0, 0.0, 0.0];

/// A draw. The default is an empty path in transparent black, with the identity matrix, over what is there.
#[derive(Clone, Debug)]
pub struct Draw {
    /// What of the path is inside.
    pub fill_rule: FillRule,
    /// Whether only pixels in one of the scissors are drawn, none if there are none.
    pub scissoring: bool,
    /// Whether stops are premultiplied before interpolation, so that colours which fade do not darken on the way.
    pub premultiplied_ramp: bool,
    /// Whether the draw asks for the mask that is lent with the scene.
    pub masked: bool,
    /// Whether the transformation is on.
    pub transformed: bool,
    /// How the paint and what is there become one.
    pub blend: Blend,
    /// Which paint is used: `color`, or the gradient of `linear` or `radial` with the stops.
    pub paint: PaintType,
    /// What a gradient does beyond its ends.
    pub spread: Spread,
    /// sx, shy, shx, sy, tx, ty: a point (x, y) of the path lies at (sx·x + shx·y + tx, shy·x + sy·y + ty) in pixels.
    pub matrix: [f32; 6],
    /// R, G, B, A, not premultiplied, 0 to 1.
    pub color: [f32; 4],
    /// x0, y0, x1, y1 in surface pixels.
    pub linear: [f32; 4],
    /// cx, cy, fx, fy, r in surface pixels; a radial draw has them in place of the first stop, any other not at all.
    pub radial: [f32; 5],
    /// At most 4; they are used where `scissoring` is on.
    pub scissors: Vec<Scissor>,
    /// At most 32, in a radial draw 31.
    pub stops: Vec<Stop>,
    /// Four scales, then four biases, each for R, G, B and A; only edition 1 has a place for them.
    pub transformation: [f32; 8],
    /// What is filled.
    pub path: Path,
}

impl Default for Draw {
    fn default() -> Draw {
        Draw {
            fill_rule: FillRule::default(),
            scissoring: false,
            premultiplied_ramp: false,
            masked: false,
            transformed: false,
            blend: Blend::default(),
            paint: PaintType::default(),
            spread: Spread::default(),
            matrix: [1.0, 0.0, 0.0, 1.0, 0.0, 0.0],
            color: [0.0; 4],
            linear: [0.0; 4],
            radial: [0.0; 5],
            scissors: Vec::new(),
            stops: Vec::new(),
            transformation: IDENTITY,
            path: Path::default(),
        }
    }
}

impl Scene {
    /// A scene of edition 0 without draws.
    pub fn new(width: u16, height: u16, background: [u8; 4]) -> Scene {
        Scene { width, height, background, edition: 0, draws: Vec::new() }
    }

    /// The bytes that a surface for this scene has.
    pub fn surface_bytes(&self) -> usize {
        4 * self.mask_bytes()
    }

    /// The bytes that a mask for this scene has.
    pub fn mask_bytes(&self) -> usize {
        usize::from(self.width) * usize::from(self.height)
    }

    /// The scene file, whatever the rules say of it; see [`Scene::build`].
    ///
    /// # Panics
    ///
    /// If the layout has no places for what the scene has.
    pub fn bytes(&self) -> Vec<u8> {
        let mut file = vec![0; BLOCK * (1 + DRAW_BLOCKS * self.draws.len())];
        put(&mut file, 0, &self.width.to_le_bytes());
        put(&mut file, 2, &self.height.to_le_bytes());
        let count = u16::try_from(self.draws.len()).expect("a count of 16 bits");
        put(&mut file, 4, &count.to_le_bytes());
        put(&mut file, 6, &self.edition.to_le_bytes());
        put(&mut file, 8, &self.background);
        for (i, draw) in self.draws.iter().enumerate() {
            for (j, payload) in draw.bytes(self.edition).chunks(PAYLOAD).enumerate() {
                put(&mut file, BLOCK * (1 + DRAW_BLOCKS * i + j), payload);
            }
        }
        seal(&mut file);
        file
    }
}

impl Draw {
    /// The joined payloads in an edition, whatever the rules say of them.
    ///
    /// # Panics
    ///
    /// If the layout has no places for what the draw has.
    pub fn bytes(&self, edition: u16) -> [u8; DRAW_BYTES] {
        assert!(self.scissors.len() <= place::MOST_SCISSORS, "the layout has four scissors");
        let radial = self.paint == PaintType::Radial;
        assert!(
            self.stops.len() + usize::from(radial) <= place::MOST_STOPS,
            "the layout has 32 stops, a radial draw 31"
        );
        let segments = &self.path.segments;
        let coordinates = &self.path.coordinates;
        assert!(segments.len() <= place::MOST_SEGMENTS, "the layout has 128 segments");
        let first_coordinate = first_coordinate(edition);
        assert!(
            first_coordinate + 2 * coordinates.len() <= DRAW_BYTES,
            "the layout has 566 coordinates, that of edition 1 550"
        );

        let mut bytes = [0; DRAW_BYTES];
        let flags = u16::from(self.fill_rule == FillRule::NonZero)
            | u16::from(self.scissoring) << 1
            | u16::from(self.premultiplied_ramp) << 2
            | u16::from(self.masked) << 3
            | u16::from(self.transformed) << 4;
        let numbers = [flags, 0x2000 + self.blend as u16, 0x1B00 + self.paint as u16, 0x1C00 + self.spread as u16];
        for (i, number) in numbers.iter().enumerate() {
            put(&mut bytes, 2 * i, &number.to_le_bytes());
        }
        bytes[place::SEGMENT_COUNT] = segments.len() as u8;
        bytes[place::SCISSOR_COUNT] = self.scissors.len() as u8;
        bytes[place::STOP_COUNT] = self.stops.len() as u8;
        put_floats(&mut bytes, place::MATRIX, &self.matrix);
        put_floats(&mut bytes, place::COLOR, &self.color);
        put_floats(&mut bytes, place::LINEAR, &self.linear);
        for (i, scissor) in self.scissors.iter().enumerate() {
            let numbers = [scissor.x, scissor.y, scissor.width, scissor.height];
            for (j, number) in numbers.iter().enumerate() {
                put(&mut bytes, place::SCISSORS + place::SCISSOR_BYTES * i + 4 * j, &number.to_le_bytes());
            }
        }
        if radial {
            put_floats(&mut bytes, place::RADIAL, &self.radial);
        }
        let first_stop = place::STOPS + if radial { place::STOP_BYTES } else { 0 };
        for (i, stop) in self.stops.iter().enumerate() {
            put_floats(&mut bytes, first_stop + place::STOP_BYTES * i, &[stop.offset]);
            put_floats(&mut bytes, first_stop + place::STOP_BYTES * i + 4, &stop.color);
        }
        put(&mut bytes, place::SEGMENTS, segments);
        if edition == 1 {
            put_floats(&mut bytes, place::SCALES, &self.transformation);
        }
        for (i, coordinate) in coordinates.iter().enumerate() {
            put(&mut bytes, first_coordinate + 2 * i, &coordinate.to_le_bytes());
        }
        bytes
    }
}

/// The place of a draw's first coordinate in an edition.
pub fn first_coordinate(edition: u16) -> usize {
    if edition == 1 {
        932
    } else {
        900
    }
}

/// The offset in a file of a place in a draw's joined payloads.
pub fn file_offset(draw: usize, place: usize) -> usize {
    BLOCK * (1 + DRAW_BLOCKS * draw + place / PAYLOAD) + place % PAYLOAD
}

/// The joined payloads of a draw, as far as a file has them; what is missing is zero.
pub fn draw_payload(file: &[u8], draw: usize) -> Vec<u8> {
    let mut bytes = vec![0; DRAW_BYTES];
    for (place, payload) in (0..).step_by(PAYLOAD).zip(bytes.chunks_mut(PAYLOAD)) {
        let there = file.get(file_offset(draw, place)..).unwrap_or(&[]);
        let length = there.len().min(PAYLOAD);
        payload[..length].copy_from_slice(&there[..length]);
    }
    bytes
}

/// Writes the check of every whole block anew.
pub fn seal(file: &mut [u8]) {
    for number in 0..file.len() / BLOCK {
        seal_block(file, number);
    }
}

/// Writes the check of one block anew.
pub fn seal_block(file: &mut [u8], number: usize) {
    seal_block_from(file, number, number as u64);
}

/// Writes the check of one block with sums that begin anywhere, not at its number.
pub fn seal_block_from(file: &mut [u8], number: usize, start: u64) {
    let (payload, check) = file[BLOCK * number..][..BLOCK].split_at_mut(PAYLOAD);
    let (mut sum, mut weighted) = (start, start);
    for (i, word) in (1..).zip(payload.chunks_exact(2)) {
        let word = u64::from(u16::from_le_bytes([word[0], word[1]]));
        sum += word;
        weighted += i * word;
    }
    put(check, 0, &((sum % 65_521) as u16).to_le_bytes());
    put(check, 2, &((weighted % 65_521) as u16).to_le_bytes());
}

fn put(bytes: &mut [u8], at: usize, value: &[u8]) {
    bytes[at..at + value.len()].copy_from_slice(value);
}

fn put_floats(bytes: &mut [u8], at: usize, values: &[f32]) {
    for (i, value) in values.iter().enumerate() {
        put(bytes, at + 4 * i, &value.to_le_bytes());
    }
}
