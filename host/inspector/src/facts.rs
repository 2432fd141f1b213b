//! What the page is told, as JSON. A pixel is R, G, B, A, the colours premultiplied; an area is x, y, width, height.

use library::explain::{self, Explanation, Line, COVERED, OUTSIDE};
use library::{Area, Comparison, Pixel};
use reference::answer::{BAD_LENGTH, NO_DRAW, UNSUPPORTED_IMAGE_FORMAT};
use reference::coverage::{FillRule, Scissor};
use reference::file::{draw, header};
use reference::number::u16_at;
use reference::redraw::bounds;
use reference::rules::{Draw, Scene};
use reference::words::names;
use why::{fault, Question};

use crate::json::Json;
use crate::model::{Change, Inspected, Model, Shown};

/// The bytes of a row of the file that is shown around a fault.
const ROW: usize = 16;
/// The rows before the fault's, and behind it.
const ROWS_AROUND: usize = 3;
/// How many samples of a gradient are shown.
const SAMPLES: i64 = 12;

/// A scene file: its names and size, its refusal, what is shown of it.
pub fn scene(model: &Model, inspected: &Inspected) -> Json {
    Json::Object(vec![
        ("name", Json::from(inspected.name.as_str())),
        ("names", Json::list(model.scenes.iter().map(|scene| scene.name.as_str()))),
        ("bytes", inspected.file.len().into()),
        ("refused", inspected.refusal.map(|refusal| refused(&model.question(&inspected.file, 0, 0), &refusal)).into()),
        ("shown", inspected.shown.as_ref().map(shown).into()),
    ])
}

/// A refusal: code, place, field, value and rule in words, and the bytes around the place.
fn refused(question: &Question, refusal: &Explanation) -> Json {
    let rule = fault::rule(question, refusal);
    let (field, value, rule) = rule.map_or((None, None, None), |r| (Some(r.field), Some(r.value), Some(r.rule)));
    Json::Object(vec![
        ("code", code(refusal.code)),
        ("words", names::code(refusal.code).into()),
        ("draw", Some(refusal.draw).filter(|&draw| draw != NO_DRAW).into()),
        ("offset", refusal.offset.into()),
        ("where", fault::place(question, refusal).into()),
        ("field", field.into()),
        ("value", value.into()),
        ("rule", rule.into()),
        ("around", around(question.scene, refusal)),
    ])
}

/// A code in the four digits of the tables.
fn code(code: u32) -> Json {
    format!("{code:04x}").into()
}

/// The rows of the file around a fault's place, which is marked; nothing where the fault is in no byte of the file.
fn around(file: &[u8], refusal: &Explanation) -> Json {
    if matches!(refusal.code, BAD_LENGTH | UNSUPPORTED_IMAGE_FORMAT) || refusal.offset >= file.len() {
        return Json::Null;
    }
    let row = refusal.offset / ROW;
    let from = ROW * row.saturating_sub(ROWS_AROUND);
    let end = (ROW * (row + 1 + ROWS_AROUND)).min(file.len());
    Json::Object(vec![
        ("from", from.into()),
        ("marked", refusal.offset.into()),
        ("bytes", Json::list(file[from..end].iter().copied())),
    ])
}

/// What is shown of a file: the picture's size, and the draws.
fn shown(shown: &Shown) -> Json {
    let scene = &shown.scene;
    let replaced = shown.replaced.iter().map(|replaced| {
        Json::Object(vec![
            ("draw", replaced.draw.into()),
            ("code", code(replaced.code)),
            ("words", names::code(replaced.code).into()),
        ])
    });
    Json::Object(vec![
        ("width", scene.width.into()),
        ("height", scene.height.into()),
        ("edition", u32::from(u16_at(&shown.bytes, header::EDITION)).into()),
        ("background", Json::list(scene.background)),
        ("replaced", Json::List(replaced.collect())),
        ("draws", Json::list(scene.draws.iter().map(|draw| draw_fields(scene, draw)))),
    ])
}

/// A draw: what it is called in the tables, its box, and its paint.
fn draw_fields(scene: &Scene, draw: &Draw) -> Json {
    let number = |place| u16_at(&draw.bytes, place);
    let is_gradient = number(draw::PAINT) != 0x1B00;
    let spread = names::of(&names::SPREADS, 0x1C00, number(draw::SPREAD)).filter(|_| is_gradient);
    let rule = match draw.fill_rule {
        FillRule::EvenOdd => "even-odd",
        FillRule::NonZero => "non-zero",
    };
    let area = bounding_area(scene, draw);
    Json::Object(vec![
        ("blend", names::of(&names::BLENDS, 0x2000, number(draw::BLEND)).into()),
        ("paint", names::of(&names::PAINTS, 0x1B00, number(draw::PAINT)).into()),
        ("spread", spread.into()),
        ("rule", rule.into()),
        ("segments", draw.bytes[draw::SEGMENT_COUNT].into()),
        ("edges", draw.edges.len().into()),
        ("masked", draw.masked.into()),
        ("transformed", draw.transform.is_some().into()),
        ("box", area.map(area_numbers).into()),
        ("scissors", draw.scissors.as_ref().map(|scissors| Json::list(scissors.iter().map(scissor_numbers))).into()),
        ("swatches", swatches(draw, area.filter(|_| is_gradient))),
    ])
}

/// The pixels of a draw's box.
fn bounding_area(scene: &Scene, draw: &Draw) -> Option<Area> {
    let found = bounds(draw, scene.width, scene.height)?.rectangle();
    Some(Area { x: found.x, y: found.y, width: found.width, height: found.height })
}

/// The paint as it is blended: along the diagonal of an area, from its lowest left pixel, or at one pixel.
fn swatches(draw: &Draw, area: Option<Area>) -> Json {
    let Area { x, y, width, height } = area.unwrap_or(Area { x: 0, y: 0, width: 1, height: 1 });
    let along = |first: u32, count: u32, i: i64| i64::from(first) + i64::from(count - 1) * i / (SAMPLES - 1);
    let samples = if area.is_some() { SAMPLES } else { 1 };
    Json::list((0..samples).map(|i| Json::list(draw.source(along(x, width, i), along(y, height, i)))))
}

fn area_numbers(area: Area) -> Json {
    Json::list([area.x, area.y, area.width, area.height])
}

fn scissor_numbers(scissor: &Scissor) -> Json {
    Json::list([scissor.x, scissor.y, scissor.width, scissor.height])
}

/// A draw's edges in 1/256 pixel: x and y of each one's two ends.
pub fn edges(draw: &Draw) -> Json {
    Json::list(draw.edges.iter().flat_map(|edge| [edge.from.x, edge.from.y, edge.to.x, edge.to.y]))
}

/// Why a pixel has its colour, draw by draw and in words; or the refusal.
pub fn pixel(question: &Question, name: &str) -> Json {
    let lent = question.mask.map_or(library::Mask::NONE, library::Mask::of);
    let coordinate = |number: i64| u32::try_from(number).unwrap_or(u32::MAX);
    let (x, y) = (coordinate(question.x), coordinate(question.y));
    let start = explain::explain(question.scene, lent, x, y);
    let lines = match explain::lines(question.scene, lent, x, y) {
        Ok(lines) => lines,
        Err(refusal) => return Json::Object(vec![("refused", refused(question, &refusal))]),
    };
    let last = lines.last().map_or(start.pixel, |line| line.after);
    Json::Object(vec![
        ("x", question.x.into()),
        ("y", question.y.into()),
        ("background", channels(start.pixel)),
        ("lines", Json::list(lines.iter().map(line))),
        ("last", channels(last)),
        ("story", question.answer(name, false).0.into()),
    ])
}

fn channels(pixel: Pixel) -> Json {
    Json::list(<[u8; 4]>::from(pixel))
}

/// A line of the library.
fn line(line: &Line) -> Json {
    let kind = match line.kind {
        COVERED => "covered",
        OUTSIDE => "outside",
        _ => "uncovered",
    };
    Json::Object(vec![
        ("kind", kind.into()),
        ("coverage", line.coverage.into()),
        ("mask", (line.masked == 1).then_some(line.mask).into()),
        ("paint", channels(line.paint)),
        ("before", channels(line.before)),
        ("after", channels(line.after)),
    ])
}

/// What is redrawn between the two scenes, or why nothing is; nothing where there are not two to show.
pub fn change(model: &Model) -> Json {
    match model.change() {
        None => Json::Null,
        Some(Err(refusal)) => Json::Object(vec![("refused", refusal.to_string().into())]),
        Some(Ok(Change { area, planned, comparison })) => Json::Object(vec![
            ("area", area_numbers(area)),
            ("planned", Json::list(planned.into_iter().map(area_numbers))),
            ("differing", comparison.count.into()),
            ("around", differing(&comparison).into()),
        ]),
    }
}

/// The smallest area with all pixels that differ, if any does.
fn differing(comparison: &Comparison) -> Option<Json> {
    let Comparison { x, y, width, height, .. } = *comparison;
    (comparison.count > 0).then(|| area_numbers(Area { x, y, width, height }))
}
