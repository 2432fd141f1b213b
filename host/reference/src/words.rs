//! A fault in words: the field at its offset, the value there, and the rule that it breaks.
//!
//! Who met the fault says where. Each rule that can be met there is then tried on the file, in the rules' order, and the one
//! that is named is one that the file does break.

mod draw;
pub mod names;

use std::fmt;

use crate::answer::{Fault, BAD_CHECKSUM, BAD_LENGTH, NO_DRAW};
use crate::file::{self, header, Edition, BLOCK, PAYLOAD};
use crate::number::u16_at;
use draw::DrawRules;

/// A rule that is broken: the field that breaks it, its value, and the rule.
#[derive(Clone, Debug, PartialEq, Eq)]
pub struct Broken {
    pub field: String,
    pub value: String,
    pub rule: String,
}

impl Broken {
    pub fn new(field: impl Into<String>, value: impl Into<String>, rule: impl Into<String>) -> Broken {
        Broken { field: field.into(), value: value.into(), rule: rule.into() }
    }
}

impl fmt::Display for Broken {
    fn fmt(&self, f: &mut fmt::Formatter) -> fmt::Result {
        write!(f, "{} is {}; {}", self.field, self.value, self.rule)
    }
}

/// The rule that a file breaks at a fault; none if it breaks none that can be met there. Any bytes and any fault do.
pub fn broken(file: &[u8], mask_lent: bool, fault: &Fault) -> Option<Broken> {
    match fault.code {
        BAD_LENGTH => length(file),
        BAD_CHECKSUM => check(file, fault.offset / BLOCK),
        _ if fault.draw == NO_DRAW => in_header(file, fault.offset),
        _ => in_draw(file, mask_lent, fault),
    }
}

fn length(file: &[u8]) -> Option<Broken> {
    let told = |rule: String| Some(Broken::new("the file", format!("{} bytes", file.len()), rule));
    if file.len() < BLOCK {
        return told("a scene has a block of 512 bytes at least".to_string());
    }
    if file.len() % BLOCK != 0 {
        return told("a scene is a whole number of blocks of 512 bytes".to_string());
    }
    let draws = usize::from(u16_at(file, header::DRAWS));
    let asked = file::length(draws);
    if file.len() == asked {
        return None;
    }
    told(format!("a scene with {draws} draws, as block 0 says, is 512(1 + 4n) = {asked} bytes"))
}

fn check(file: &[u8], block: usize) -> Option<Broken> {
    if block >= file.len() / BLOCK || file::check_holds(file, block) {
        return None;
    }
    let stored = file::check_offset(block);
    let (sum, weighted) = file::checksum(block, &file[BLOCK * block..][..PAYLOAD]);
    Some(Broken::new(
        format!("the check of block {block}"),
        format!("{} and {}", u16_at(file, stored), u16_at(file, stored + 2)),
        format!("the two sums of its payload, begun at its number, are {sum} and {weighted}"),
    ))
}

const LAST_ZERO: usize = PAYLOAD - 1;

/// The rules of block 0.
fn in_header(file: &[u8], offset: usize) -> Option<Broken> {
    if file.len() < BLOCK {
        return None;
    }
    let number = || u16_at(file, offset);
    let told = |field: &str, rule: &str| Some(Broken::new(field, number().to_string(), rule));
    let size = 1..=1_024;
    match offset {
        header::WIDTH if !size.contains(&number()) => told("the width", "the width is from 1 to 1,024"),
        header::HEIGHT if !size.contains(&number()) => told("the height", "the height is from 1 to 1,024"),
        header::DRAWS if number() > 64 => told("the number of draws", "there are at most 64 draws"),
        header::EDITION if number() > 1 => told("the edition", "the edition is 0, the old layout, or 1, the new one"),
        header::ZEROS..=LAST_ZERO if file[offset] != 0 => Some(Broken::new(
            format!("byte {offset} of block 0"),
            byte(file[offset]),
            "bytes 12 to 507 of block 0 are zero",
        )),
        _ => None,
    }
}

/// The rules of a draw.
fn in_draw(file: &[u8], mask_lent: bool, fault: &Fault) -> Option<Broken> {
    let draw = fault.draw as usize;
    if fault.draw > NO_DRAW || file.len() < file::length(draw + 1) {
        return None;
    }
    let place = file::place(draw, fault.offset)?;
    let edition = Edition::from_number(u16_at(file, header::EDITION))?;
    DrawRules { bytes: file::draw_bytes(file, draw), edition, mask_lent }.broken_at(place)
}

fn byte(value: u8) -> String {
    format!("{value} (0x{value:02x})")
}
