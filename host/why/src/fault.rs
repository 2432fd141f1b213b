//! A refused question in words: where the fault is, the field there with its value, and the rule that it breaks.
//!
//! The library says where. The reference has the words for what is wrong with a file; those for the mask and the pixel that
//! were asked with are here.

use library::explain::Explanation;
use reference::answer::{BAD_LENGTH, NO_DRAW, UNSUPPORTED_IMAGE_FORMAT};
use reference::file::{self, header, BLOCK};
use reference::number::u16_at;
use reference::words::{self, names, Broken};
use reference::Fault;

use crate::Question;

/// The refusal as it is told.
pub fn told(question: &Question, name: &str, refusal: &Explanation) -> String {
    let head = format!("{name} is refused: code {:04x}, {}\n\n", refusal.code, names::code(refusal.code));
    let found = rule(question, refusal);
    let place = format!("    where    {}\n", place(question, refusal));
    let rest = match found {
        Some(found) => {
            format!("    field    {}\n    value    {}\n    rule     {}\n", found.field, found.value, found.rule)
        }
        None => "    rule     one that this program has no words for\n".to_string(),
    };
    head + &place + &rest
}

/// Where the fault is.
pub fn place(question: &Question, refusal: &Explanation) -> String {
    let (draw, offset) = (refusal.draw, refusal.offset);
    if refusal.code == BAD_LENGTH {
        return "the file's length".to_string();
    }
    if refusal.code == UNSUPPORTED_IMAGE_FORMAT {
        return "the mask's length".to_string();
    }
    if in_file(question, refusal).is_none() && outside(question).is_some() {
        return "the pixel that was asked for".to_string();
    }
    let byte = format!("byte {offset} of the file, byte {} of block {}", offset % BLOCK, offset / BLOCK);
    match file::place(draw as usize, offset) {
        _ if draw == NO_DRAW => byte,
        Some(place) => format!("draw {draw}, place {place}: {byte}"),
        None => format!("draw {draw}: {byte}"),
    }
}

/// The rule that was broken, if the question breaks one that can be met there.
pub fn rule(question: &Question, refusal: &Explanation) -> Option<Broken> {
    match refusal.code {
        UNSUPPORTED_IMAGE_FORMAT => mask(question),
        _ => in_file(question, refusal).or_else(|| outside(question)),
    }
}

/// The rule that the file breaks.
fn in_file(question: &Question, refusal: &Explanation) -> Option<Broken> {
    let fault = Fault { code: refusal.code, draw: refusal.draw, offset: refusal.offset };
    words::broken(question.scene, question.mask.is_some(), &fault)
}

fn mask(question: &Question) -> Option<Broken> {
    let mask = question.mask?;
    let (width, height) = size(question.scene);
    let pixels = usize::from(width) * usize::from(height);
    if mask.len() == pixels {
        return None;
    }
    let rule = format!("a mask has a byte for each pixel of the picture: {width} times {height}, {pixels} bytes");
    Some(Broken::new("the mask", format!("{} bytes", mask.len()), rule))
}

fn size(file: &[u8]) -> (u16, u16) {
    (u16_at(file, header::WIDTH), u16_at(file, header::HEIGHT))
}

/// A pixel that is not in the picture.
fn outside(question: &Question) -> Option<Broken> {
    let Question { x, y, .. } = *question;
    let (width, height) = size(question.scene);
    if (0..i64::from(width)).contains(&x) && (0..i64::from(height)).contains(&y) {
        return None;
    }
    let rule = format!("the picture has columns 0 to {} and rows 0 to {}", width - 1, height - 1);
    Some(Broken::new("the pixel", format!("({x}, {y})"), rule))
}
