//! What the rules met first in a file, in words.

use std::fmt;

use reference::answer::{BAD_LENGTH, NO_DRAW};
use reference::{rules, words};

/// The first fault of a file: what the library would answer, the offset, and words for both.
#[derive(Clone, Debug, PartialEq, Eq)]
pub struct Fault {
    pub code: u32,
    /// From 0, or 64 if the fault is in no draw.
    pub draw: u32,
    pub offset: usize,
    /// The field at the offset, its value, and the rule that it breaks.
    pub words: String,
}

/// A call that lends a mask: whether one will be lent is not in the file.
const MASK_LENT: bool = true;

impl Fault {
    /// The first fault of a file as a call meets it that lends a mask; none if the file is accepted.
    pub fn of(file: &[u8]) -> Option<Fault> {
        let found = rules::scene(file, MASK_LENT).err()?;
        let broken = words::broken(file, MASK_LENT, &found);
        let words = broken.map_or_else(|| "a rule that has no words".to_string(), |broken| broken.to_string());
        Some(Fault { code: found.code, draw: found.draw, offset: found.offset, words })
    }

    /// Whether it is about the file's length, not about a field.
    pub fn is_of_length(&self) -> bool {
        self.code == BAD_LENGTH
    }
}

impl fmt::Display for Fault {
    fn fmt(&self, f: &mut fmt::Formatter) -> fmt::Result {
        write!(f, "refused {:04x}", self.code)?;
        if self.draw != NO_DRAW {
            write!(f, ", draw {}", self.draw)?;
        }
        write!(f, ", offset {}: {}", self.offset, self.words)
    }
}
