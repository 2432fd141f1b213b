//! Bytes with the place in the text that each of them comes from.

use std::ops::Range;

use super::Position;

/// The bytes of block 0 or of a draw.
pub struct Marked {
    pub bytes: Vec<u8>,
    /// Where the text begins that is about these bytes.
    start: Position,
    marks: Vec<(Range<usize>, Position)>,
}

/// Some bytes of a field, and where they come from.
pub struct Piece {
    pub at: Position,
    pub bytes: Vec<u8>,
}

impl Marked {
    pub fn new(bytes: Vec<u8>, start: Position) -> Marked {
        Marked { bytes, start, marks: Vec::new() }
    }

    /// Where the text begins that is about these bytes.
    pub fn start(&self) -> Position {
        self.start
    }

    /// Puts pieces one behind the other from a place on.
    pub fn put(&mut self, place: usize, pieces: &[Piece]) {
        let mut place = place;
        for piece in pieces {
            let end = place + piece.bytes.len();
            self.bytes[place..end].copy_from_slice(&piece.bytes);
            self.mark(place..end, piece.at);
            place = end;
        }
    }

    /// Says where the bytes of some places come from.
    pub fn mark(&mut self, places: Range<usize>, at: Position) {
        self.marks.push((places, at));
    }

    /// Where a place comes from: what was said last, or the start.
    pub fn position(&self, place: usize) -> Position {
        self.marks.iter().rev().find(|(places, _)| places.contains(&place)).map_or(self.start, |(_, at)| *at)
    }
}
