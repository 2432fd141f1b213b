//! A place in a text that moves forward, with its line and column.

use crate::problem::Position;

pub struct Cursor<'a> {
    rest: &'a str,
    position: Position,
}

impl<'a> Cursor<'a> {
    pub fn new(text: &'a str) -> Cursor<'a> {
        Cursor { rest: text, position: Position { line: 1, column: 1 } }
    }

    pub fn position(&self) -> Position {
        self.position
    }

    /// What is not read yet.
    pub fn rest(&self) -> &'a str {
        self.rest
    }

    pub fn is_at_end(&self) -> bool {
        self.rest.is_empty()
    }

    /// Moves on by so many bytes, and gives them.
    fn advance(&mut self, bytes: usize) -> &'a str {
        let (taken, rest) = self.rest.split_at(bytes);
        for letter in taken.chars() {
            if letter == '\n' {
                self.position = Position { line: self.position.line + 1, column: 1 };
            } else {
                self.position.column += 1;
            }
        }
        self.rest = rest;
        taken
    }

    /// Whether these letters are next; then they are taken.
    pub fn take(&mut self, letters: &str) -> bool {
        let is_next = self.rest.starts_with(letters);
        if is_next {
            self.advance(letters.len());
        }
        is_next
    }

    /// The text before an end, which is taken too.
    pub fn until(&mut self, end: &str) -> Result<&'a str, String> {
        match self.rest.find(end) {
            Some(length) => {
                let text = self.advance(length);
                self.advance(end.len());
                Ok(text)
            }
            None => {
                self.advance(self.rest.len());
                Err(format!("ends before '{end}'"))
            }
        }
    }

    /// The text before a letter, or all that is left.
    pub fn until_before(&mut self, letter: char) -> &'a str {
        self.advance(self.rest.find(letter).unwrap_or(self.rest.len()))
    }

    pub fn skip_space(&mut self) {
        let length = self.rest.len() - self.rest.trim_start().len();
        self.advance(length);
    }

    /// A name of an element or an attribute.
    pub fn name(&mut self) -> Result<&'a str, String> {
        let is_end = |letter: char| letter.is_whitespace() || "<>/='\"".contains(letter);
        match self.rest.find(is_end).unwrap_or(self.rest.len()) {
            0 => Err("has no name here".to_string()),
            length => Ok(self.advance(length)),
        }
    }
}
