//! Block 0: size, edition and background.

use std::ops::Range;

use scene::PAYLOAD;

use super::line::{Line, Word};
use super::marks::{Marked, Piece};
use super::{Error, Position};
use crate::{color, number};

/// The keywords that stand before the first draw only.
pub const KEYWORDS: [&str; 3] = ["size", "edition", "background"];

/// The first of the places without a keyword, which are zero in an accepted scene.
const ZEROS: usize = 12;

pub struct HeadReader {
    marked: Marked,
    seen: Vec<String>,
}

impl HeadReader {
    pub fn new() -> HeadReader {
        HeadReader { marked: Marked::new(vec![0; PAYLOAD], Position { line: 1, column: 1 }), seen: Vec::new() }
    }

    /// The edition as far as the text has been read.
    pub fn edition(&self) -> u16 {
        u16::from_le_bytes([self.marked.bytes[6], self.marked.bytes[7]])
    }

    pub fn line(&mut self, line: &Line) -> Result<(), Error> {
        let keyword = line.keyword;
        if keyword.text == "bytes" {
            let (place, pieces) = bytes(line, ZEROS..PAYLOAD)?;
            self.marked.put(place, &pieces);
            return Ok(());
        }
        if !KEYWORDS.contains(&keyword.text) {
            return Err(keyword.error(format!("'{}' is none of {}, draw", keyword.text, KEYWORDS.join(", "))));
        }
        once(&mut self.seen, keyword)?;
        match keyword.text {
            "size" => {
                let sides: [Word; 2] = line.exactly("a width and a height")?;
                self.marked.put(0, &[u16_piece(sides[0])?, u16_piece(sides[1])?]);
            }
            "edition" => {
                let [edition] = line.exactly("a number")?;
                self.marked.put(6, &[u16_piece(edition)?]);
            }
            _ => {
                let [background] = line.exactly("a colour")?;
                let bytes = color::bytes(background.text).map_err(|message| background.error(message))?;
                self.marked.put(8, &[Piece { at: background.at, bytes: bytes.to_vec() }]);
            }
        }
        Ok(())
    }

    /// The bytes, if there was a size; `draw` is where the first draw begins.
    pub fn end(self, draw: Option<Position>) -> Result<Marked, Error> {
        if self.seen.iter().any(|keyword| keyword == "size") {
            return Ok(self.marked);
        }
        let at = draw.unwrap_or_else(|| self.marked.start());
        Err(Error::new(at, "a scene begins with its size: 'size WIDTH HEIGHT'"))
    }
}

/// Takes note of a keyword that stands once.
pub fn once(seen: &mut Vec<String>, keyword: Word) -> Result<(), Error> {
    if seen.iter().any(|before| before == keyword.text) {
        return Err(keyword.error(format!("'{}' stands here a second time", keyword.text)));
    }
    seen.push(keyword.text.to_string());
    Ok(())
}

fn u16_piece(word: Word) -> Result<Piece, Error> {
    let value = number::whole(word.text, 0, 65_535).map_err(|message| word.error(message))?;
    Ok(Piece { at: word.at, bytes: (value as u16).to_le_bytes().to_vec() })
}

/// A line of bytes: the first place, and the bytes from there on, all among these places.
pub fn bytes(line: &Line, places: Range<usize>) -> Result<(usize, Vec<Piece>), Error> {
    let (first, rest) = match &line.words[..] {
        [first, rest @ ..] if !rest.is_empty() => (first, rest),
        _ => return Err(Error::new(line.end, "'bytes' takes a place and bytes of two hex digits")),
    };
    let last = places.end as i64 - 1;
    let place = number::whole(first.text, places.start as i64, last).map_err(|message| first.error(message))? as usize;
    let mut pieces = Vec::new();
    for (at, word) in (place..).zip(rest) {
        let byte = number::hex_byte(word.text)
            .ok_or_else(|| word.error(format!("'{}' is no byte of two hex digits", word.text)))?;
        if at >= places.end {
            return Err(word.error(format!("there is no place {at}: the last one is {last}")));
        }
        pieces.push(Piece { at: word.at, bytes: vec![byte] });
    }
    Ok((place, pieces))
}
