//! The scene rules in their order: a file is decoded, or the fault that they meet first is named.

use crate::answer::{Fault, BAD_CHECKSUM, BAD_LENGTH, ILLEGAL_ARGUMENT, NO_DRAW, UNSUPPORTED_PATH_FORMAT};
use crate::blend::Blend;
use crate::coverage::{FillRule, Scissor};
use crate::file::{self, draw, header, Edition};
use crate::number::{f32_at, i16_at, i32_at, u16_at};
use crate::paint::{LinearGradient, Paint, Pixel, Ramp, Spread, Stop};
use crate::path::{self, Edge, Matrix, SegmentFault};
use crate::radial::RadialGradient;
use crate::transform::ColorTransform;

const MAX_SIDE: u16 = 1_024;
const MAX_DRAWS: u16 = 64;
const MAX_SCALE: f32 = 256.0;
const MAX_TRANSLATION: f32 = 32_768.0;
const MAX_LINEAR: f32 = 4_096.0;
const MAX_RADIAL: f32 = 1_024.0;

const COLOR: u16 = 0x1B00;
const LINEAR: u16 = 0x1B01;
const RADIAL: u16 = 0x1B02;

const FLAG_NON_ZERO: u16 = 1;
const FLAG_SCISSORING: u16 = 2;
const FLAG_PREMULTIPLIED: u16 = 4;
const FLAG_MASKED: u16 = 8;
const FLAG_TRANSFORMED: u16 = 16;

/// An accepted scene.
#[derive(Debug)]
pub struct Scene {
    pub width: u32,
    pub height: u32,
    /// As given, not premultiplied.
    pub background: [u8; 4],
    pub edition: Edition,
    pub draws: Vec<Draw>,
}

impl Scene {
    pub fn surface_bytes(&self) -> usize {
        4 * self.mask_bytes()
    }

    /// A mask has a byte for each pixel.
    pub fn mask_bytes(&self) -> usize {
        self.width as usize * self.height as usize
    }
}

/// An accepted draw.
#[derive(Debug)]
pub struct Draw {
    /// The joined payloads, by which a redraw compares.
    pub bytes: Vec<u8>,
    pub fill_rule: FillRule,
    /// None with scissoring off.
    pub scissors: Option<Vec<Scissor>>,
    /// Whether it asks for the mask.
    pub masked: bool,
    pub blend: Blend,
    pub paint: Paint,
    /// None with the transformation off.
    pub transform: Option<ColorTransform>,
    pub edges: Vec<Edge>,
}

impl Draw {
    /// The premultiplied bytes that are blended at a pixel.
    pub fn source(&self, x: i64, y: i64) -> Pixel {
        let paint = self.paint.at(x, y);
        self.transform.map_or(paint, |transform| transform.at(paint))
    }
}

/// A fault within a draw: its code, and its place in the joined payloads.
#[derive(Clone, Copy, Debug, PartialEq, Eq)]
pub struct DrawFault {
    pub code: u32,
    pub place: usize,
}

/// The scene in a file, or its first fault; a draw may ask for a mask only where one is lent.
pub fn scene(bytes: &[u8], mask_lent: bool) -> Result<Scene, Fault> {
    let header = front(bytes)?;
    let rules = Rules { mask_lent, edition: header.edition };
    let draws = (0..header.draws).map(|i| rules.numbered_draw(bytes, i)).collect::<Result<_, _>>()?;
    let Header { width, height, background, edition, .. } = header;
    Ok(Scene { width, height, background, edition, draws })
}

/// What is judged before the draws: whole blocks, block 0, and the length that its count asks for.
pub(crate) fn front(bytes: &[u8]) -> Result<Header, Fault> {
    let fault = |code, offset| Fault { code, draw: NO_DRAW, offset };
    if bytes.len() % file::BLOCK != 0 || bytes.len() < file::BLOCK {
        return Err(fault(BAD_LENGTH, 0));
    }
    if !file::check_holds(bytes, 0) {
        return Err(fault(BAD_CHECKSUM, file::check_offset(0)));
    }
    let header = header(bytes).map_err(|offset| fault(ILLEGAL_ARGUMENT, offset))?;
    if bytes.len() != file::length(header.draws) {
        return Err(fault(BAD_LENGTH, 0));
    }
    Ok(header)
}

/// The fields of block 0.
pub(crate) struct Header {
    width: u32,
    height: u32,
    pub draws: usize,
    pub edition: Edition,
    background: [u8; 4],
}

/// The fields of block 0, or the offset of the first that breaks a rule.
fn header(bytes: &[u8]) -> Result<Header, usize> {
    let number = |at| u16_at(bytes, at);
    require((1..=MAX_SIDE).contains(&number(header::WIDTH)), header::WIDTH)?;
    require((1..=MAX_SIDE).contains(&number(header::HEIGHT)), header::HEIGHT)?;
    require(number(header::DRAWS) <= MAX_DRAWS, header::DRAWS)?;
    let edition = Edition::from_number(number(header::EDITION)).ok_or(header::EDITION)?;
    require_zeros(bytes, header::ZEROS, file::PAYLOAD)?;
    Ok(Header {
        width: number(header::WIDTH).into(),
        height: number(header::HEIGHT).into(),
        draws: number(header::DRAWS).into(),
        edition,
        background: std::array::from_fn(|channel| bytes[header::BACKGROUND + channel]),
    })
}

/// What the rules of a draw depend on besides its bytes.
#[derive(Clone, Copy, Debug)]
pub struct Rules {
    pub mask_lent: bool,
    pub edition: Edition,
}

impl Rules {
    /// The four checks of draw `index`, then the rules on its bytes.
    pub(crate) fn numbered_draw(&self, bytes: &[u8], index: usize) -> Result<Draw, Fault> {
        let fault = |code, offset| Fault { code, draw: index as u32, offset };
        for block in file::first_block(index)..file::first_block(index + 1) {
            if !file::check_holds(bytes, block) {
                return Err(fault(BAD_CHECKSUM, file::check_offset(block)));
            }
        }
        self.draw(file::draw_bytes(bytes, index)).map_err(|found| fault(found.code, file::offset(index, found.place)))
    }

    /// A draw from its joined payloads: fields to the end of the stops and the transformation, a flat matrix, the path,
    /// unused segments and coordinates.
    pub fn draw(&self, bytes: Vec<u8>) -> Result<Draw, DrawFault> {
        let illegal = |place| DrawFault { code: ILLEGAL_ARGUMENT, place };
        let fields = self.fields(&bytes).map_err(illegal)?;

        require(fields.segments == 0 || !fields.matrix.is_flat(), draw::MATRIX).map_err(illegal)?;

        let segments = &bytes[draw::SEGMENTS..][..fields.segments];
        let first = self.edition.coordinates();
        let coordinates: Vec<i16> =
            (0..self.edition.max_coordinates()).map(|i| i16_at(&bytes, first + 2 * i)).collect();
        let path = path::walk(segments, &coordinates, &fields.matrix).map_err(|(fault, segment)| DrawFault {
            code: match fault {
                SegmentFault::Arc => UNSUPPORTED_PATH_FORMAT,
                _ => ILLEGAL_ARGUMENT,
            },
            place: draw::SEGMENTS + segment,
        })?;

        require_zeros(&bytes, draw::SEGMENTS + fields.segments, draw::SEGMENTS_END).map_err(illegal)?;
        require_zeros(&bytes, first + 2 * path.coordinates_used, file::DRAW_BYTES).map_err(illegal)?;

        Ok(Draw {
            fill_rule: fields.fill_rule,
            scissors: fields.scissors,
            masked: fields.masked,
            blend: fields.blend,
            paint: fields.paint,
            transform: fields.transform,
            edges: path.edges,
            bytes,
        })
    }

    /// The flags that a draw may have.
    fn flags(&self) -> u16 {
        let masking = if self.mask_lent { FLAG_MASKED } else { 0 };
        let transforming = if self.edition == Edition::New { FLAG_TRANSFORMED } else { 0 };
        FLAG_NON_ZERO | FLAG_SCISSORING | FLAG_PREMULTIPLIED | masking | transforming
    }

    /// The fields in layout order to the end of the stops, then the transformation, or the first place that breaks a rule.
    fn fields(&self, bytes: &[u8]) -> Result<Fields, usize> {
        let flags = u16_at(bytes, draw::FLAGS);
        require(flags & !self.flags() == 0, draw::FLAGS)?;
        let blend = Blend::from_number(u16_at(bytes, draw::BLEND)).ok_or(draw::BLEND)?;
        let paint_type = u16_at(bytes, draw::PAINT);
        require(matches!(paint_type, COLOR | LINEAR | RADIAL), draw::PAINT)?;
        let spread = Spread::from_number(u16_at(bytes, draw::SPREAD)).ok_or(draw::SPREAD)?;

        let segments = count(bytes, draw::SEGMENT_COUNT, draw::MAX_SEGMENTS)?;
        let scissor_count = count(bytes, draw::SCISSOR_COUNT, draw::MAX_SCISSORS)?;
        let most_stops = if paint_type == RADIAL { draw::MAX_RADIAL_STOPS } else { draw::MAX_STOPS };
        let stop_count = count(bytes, draw::STOP_COUNT, most_stops)?;
        require(bytes[draw::ZERO] == 0, draw::ZERO)?;

        let matrix = matrix(bytes)?;
        let color = floats(bytes, draw::COLOR, |v| !v.is_nan())?;
        let linear = floats(bytes, draw::LINEAR, |v| v.abs() <= MAX_LINEAR)?;
        let scissors = scissors(bytes, scissor_count)?;
        let radial = if paint_type == RADIAL { Some(radial(bytes)?) } else { None };
        let first_stop = if radial.is_some() { draw::STOPS + draw::STOP_BYTES } else { draw::STOPS };
        let ramp = Ramp::new(&stops(bytes, first_stop, stop_count)?, flags & FLAG_PREMULTIPLIED != 0);
        let transform = self.transform(bytes)?;

        let paint = match (paint_type, radial) {
            (_, Some(gradient)) => Paint::Radial { gradient, spread, ramp },
            (LINEAR, None) => Paint::Linear { gradient: LinearGradient::new(linear), spread, ramp },
            _ => Paint::color(color),
        };
        Ok(Fields {
            fill_rule: if flags & FLAG_NON_ZERO != 0 { FillRule::NonZero } else { FillRule::EvenOdd },
            scissors: (flags & FLAG_SCISSORING != 0).then_some(scissors),
            masked: flags & FLAG_MASKED != 0,
            blend,
            paint,
            transform: transform.filter(|_| flags & FLAG_TRANSFORMED != 0),
            matrix,
            segments,
        })
    }

    /// The transformation of a draw of the new edition, on or off; none of its values is a NaN.
    fn transform(&self, bytes: &[u8]) -> Result<Option<ColorTransform>, usize> {
        match self.edition {
            Edition::Old => Ok(None),
            Edition::New => Ok(Some(ColorTransform::new(floats(bytes, draw::TRANSFORM, |v| !v.is_nan())?))),
        }
    }
}

/// All that a draw has besides its path.
struct Fields {
    fill_rule: FillRule,
    scissors: Option<Vec<Scissor>>,
    masked: bool,
    blend: Blend,
    paint: Paint,
    transform: Option<ColorTransform>,
    matrix: Matrix,
    segments: usize,
}

/// A count byte that is at most `most`.
fn count(bytes: &[u8], place: usize, most: usize) -> Result<usize, usize> {
    let count = usize::from(bytes[place]);
    require(count <= most, place)?;
    Ok(count)
}

/// The six matrix entries within their limits; a NaN is within none.
fn matrix(bytes: &[u8]) -> Result<Matrix, usize> {
    let scales: [f32; 4] = floats(bytes, draw::MATRIX, |v| v.abs() <= MAX_SCALE)?;
    let translations: [f32; 2] = floats(bytes, draw::MATRIX + 16, |v| v.abs() <= MAX_TRANSLATION)?;
    let [sx, shy, shx, sy] = scales;
    let [tx, ty] = translations;
    Ok(Matrix::new([sx, shy, shx, sy, tx, ty]))
}

/// The floats from a place on, or the place of the first that is not allowed.
fn floats<const N: usize>(bytes: &[u8], place: usize, allowed: impl Fn(f32) -> bool) -> Result<[f32; N], usize> {
    let mut values = [0.0; N];
    for (i, value) in values.iter_mut().enumerate() {
        *value = f32_at(bytes, place + 4 * i);
        require(allowed(*value), place + 4 * i)?;
    }
    Ok(values)
}

/// The used scissors, whatever their numbers; unused ones are zero.
fn scissors(bytes: &[u8], count: usize) -> Result<Vec<Scissor>, usize> {
    let used_end = draw::SCISSORS + draw::SCISSOR_BYTES * count;
    require_zeros(bytes, used_end, draw::STOPS)?;
    let number = |i: usize, field: usize| {
        let place = draw::SCISSORS + draw::SCISSOR_BYTES * i + 4 * field;
        i64::from(i32_at(bytes, place))
    };
    Ok((0..count)
        .map(|i| Scissor { x: number(i, 0), y: number(i, 1), width: number(i, 2), height: number(i, 3) })
        .collect())
}

/// A radial gradient's five values within their limit, then its focal point, which is met at the first of them.
fn radial(bytes: &[u8]) -> Result<RadialGradient, usize> {
    let gradient = RadialGradient::new(floats(bytes, draw::RADIAL, |v| v.abs() <= MAX_RADIAL)?);
    require(gradient.focal_point_allowed(), draw::RADIAL)?;
    Ok(gradient)
}

/// The used stops from a place on, none with a NaN; unused ones are zero.
fn stops(bytes: &[u8], first: usize, count: usize) -> Result<Vec<Stop>, usize> {
    let mut used = Vec::new();
    for i in 0..count {
        let place = first + draw::STOP_BYTES * i;
        let [offset, r, g, b, a] = floats(bytes, place, |v| !v.is_nan())?;
        used.push(Stop { offset, color: [r, g, b, a] });
    }
    let used_end = first + draw::STOP_BYTES * count;
    require_zeros(bytes, used_end, draw::SEGMENTS)?;
    Ok(used)
}

fn require(holds: bool, place: usize) -> Result<(), usize> {
    if holds {
        Ok(())
    } else {
        Err(place)
    }
}

fn require_zeros(bytes: &[u8], from: usize, end: usize) -> Result<(), usize> {
    match file::first_nonzero(bytes, from, end) {
        Some(place) => Err(place),
        None => Ok(()),
    }
}
