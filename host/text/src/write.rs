//! A scene file as text: its fields in the order of the layout, each on a line of its own.
//!
//! A line knows which places of block 0 or of a draw it tells. What no line tells and is not zero, as only a refused
//! file has it, comes in lines of bytes; so the text holds all that the blocks hold but for their checks.

mod draw;
mod page;

use reference::answer::NO_DRAW;
use scene::place::MOST_DRAWS;
use scene::{draw_payload, file_offset, BLOCK, DRAW_BLOCKS, PAYLOAD};

use crate::color;
use crate::fault::Fault;
use page::Page;

/// A file as text, and its first fault, if the rules refuse it.
#[derive(Clone, Debug, PartialEq, Eq)]
pub struct Text {
    pub text: String,
    pub fault: Option<Fault>,
}

/// The text of a file, whatever its bytes are. What is missing of a file that was cut is read as zero.
pub fn to_text(file: &[u8]) -> Text {
    let fault = Fault::of(file);
    let draws = draws_in(file.len());
    let mut text = head(file, fault.as_ref());
    for draw in 0..draws {
        text.push('\n');
        text.push_str(&draw_text(file, draw, fault.as_ref()));
    }
    let end = file_offset(draws, 0);
    if file.len() > end {
        text.push_str(&format!("\n// behind this the file has {} bytes more\n", file.len() - end));
    }
    Text { text, fault }
}

/// How many draws there are to tell in a file of this length, the last one perhaps cut.
fn draws_in(length: usize) -> usize {
    let bytes = length.saturating_sub(BLOCK);
    let whole = BLOCK * DRAW_BLOCKS;
    (bytes / whole + usize::from(bytes % whole != 0)).min(MOST_DRAWS)
}

/// Block 0.
fn head(file: &[u8], fault: Option<&Fault>) -> String {
    let mut bytes = file[..file.len().min(PAYLOAD)].to_vec();
    bytes.resize(PAYLOAD, 0);
    let number = |at: usize| u16::from_le_bytes([bytes[at], bytes[at + 1]]);
    let mut page = Page::new("", &bytes);
    page.line(&[0..4], format!("size {} {}", number(0), number(2)));
    page.line(&[6..8], format!("edition {}", number(6)));
    page.line(&[8..12], format!("background {}", color::bytes_text([bytes[8], bytes[9], bytes[10], bytes[11]])));
    page.line(&[4..6], format!("// draws: {}", number(4)));
    page.bytes_left();
    let place = fault.filter(|fault| fault.draw == NO_DRAW).map(|fault| {
        let place = Some(fault.offset).filter(|&offset| !fault.is_of_length() && offset < PAYLOAD);
        (place, fault)
    });
    page.text(place)
}

/// A draw.
fn draw_text(file: &[u8], draw: usize, fault: Option<&Fault>) -> String {
    let bytes = draw_payload(file, draw);
    let edition = file.get(6..8).map_or(0, |bytes| u16::from_le_bytes([bytes[0], bytes[1]]));
    let mut text = format!("draw // {draw}\n");
    let (start, end) = (file_offset(draw, 0), file_offset(draw + 1, 0));
    if file.len() < end {
        let here = file.len() - start;
        text.push_str(&format!(
            "  // the file ends {here} bytes into this draw's blocks; what is missing is read as zero\n"
        ));
    }
    let place =
        fault.filter(|fault| fault.draw as usize == draw).map(|fault| (place_in_draw(draw, fault.offset), fault));
    text.push_str(&draw::page(&bytes, edition).text(place));
    text
}

/// The place in a draw's joined payloads of an offset in the file; none if it is in a check.
fn place_in_draw(draw: usize, offset: usize) -> Option<usize> {
    let at = offset.checked_sub(file_offset(draw, 0))?;
    (at % BLOCK < PAYLOAD).then_some(PAYLOAD * (at / BLOCK) + at % BLOCK)
}
