//! What of an SVG file cannot be held, and where it stands.

use std::fmt;

/// A place in the file; line and column are counted from 1, a column for each character.
#[derive(Clone, Copy, Debug, Default, PartialEq, Eq, PartialOrd, Ord)]
pub struct Position {
    pub line: usize,
    pub column: usize,
}

/// Something that cannot be held, or read.
#[derive(Clone, Debug, PartialEq, Eq)]
pub struct Problem {
    /// Where the element begins.
    pub at: Position,
    /// The element's name and id.
    pub element: String,
    /// What it is, and why.
    pub what: String,
}

impl fmt::Display for Problem {
    fn fmt(&self, f: &mut fmt::Formatter) -> fmt::Result {
        write!(f, "{}:{}: {}: {}", self.at.line, self.at.column, self.element, self.what)
    }
}
