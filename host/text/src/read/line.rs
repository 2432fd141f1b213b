//! Lines of a text, each a keyword and its words, without blank lines and comments.

use super::{Error, Position};

/// A word and where it begins.
#[derive(Clone, Copy, Debug, PartialEq, Eq)]
pub struct Word<'a> {
    pub text: &'a str,
    pub at: Position,
}

/// A line that is not blank.
#[derive(Debug, PartialEq, Eq)]
pub struct Line<'a> {
    pub keyword: Word<'a>,
    /// The words behind the keyword.
    pub words: Vec<Word<'a>>,
    /// Where the line's last word ends.
    pub end: Position,
}

/// What begins a comment, which goes to the end of its line.
const COMMENT: &str = "//";

/// The lines of a text that have words.
pub fn lines(text: &[u8]) -> Result<Vec<Line<'_>>, Error> {
    let text = std::str::from_utf8(text).map_err(|error| not_text(text, error.valid_up_to()))?;
    Ok(text.split('\n').zip(1..).filter_map(|(line, number)| Line::new(line, number)).collect())
}

/// The error of bytes that are no UTF-8 from a place on.
fn not_text(text: &[u8], place: usize) -> Error {
    let before = String::from_utf8_lossy(&text[..place]);
    let line = before.matches('\n').count() + 1;
    let column = before.chars().rev().take_while(|&letter| letter != '\n').count() + 1;
    Error::new(Position { line, column }, "this is no UTF-8 text")
}

impl<'a> Line<'a> {
    fn new(line: &'a str, number: usize) -> Option<Line<'a>> {
        let line = line.find(COMMENT).map_or(line, |comment| &line[..comment]);
        let mut words = Vec::new();
        let mut start = None;
        for (column, (index, letter)) in (1..).zip(line.char_indices().chain([(line.len(), ' ')])) {
            match (letter.is_whitespace(), start) {
                (false, None) => start = Some((index, column)),
                (true, Some((from, column))) => {
                    words.push(Word { text: &line[from..index], at: Position { line: number, column } });
                    start = None;
                }
                _ => {}
            }
        }
        let end = words.last().map(|word| word.end())?;
        let keyword = words.remove(0);
        Some(Line { keyword, words, end })
    }

    /// The words, if there are so many.
    pub fn exactly<const N: usize>(&self, what: &str) -> Result<[Word<'a>; N], Error> {
        if self.words.len() < N {
            let message = format!("'{}' takes {what}, and here are {}", self.keyword.text, self.words.len());
            return Err(Error::new(self.end, message));
        }
        self.expect_end(N)?;
        Ok(std::array::from_fn(|i| self.words[i]))
    }

    /// Nothing more behind so many words.
    pub fn expect_end(&self, words: usize) -> Result<(), Error> {
        match self.words.get(words) {
            None => Ok(()),
            Some(word) => Err(word.error(format!("'{}' is one word too many", word.text))),
        }
    }
}

impl Word<'_> {
    /// Where it ends.
    pub fn end(&self) -> Position {
        Position { line: self.at.line, column: self.at.column + self.text.chars().count() }
    }

    /// An error at this word.
    pub fn error(&self, message: impl Into<String>) -> Error {
        Error::new(self.at, message)
    }
}

#[cfg(test)]
mod tests {
    use super::*;

    #[test]
    fn words_have_columns_by_characters() {
        let lines = lines("\n  stop\té 2 // M 1\n//\nZ".as_bytes()).expect("lines");
        let words = |line: &Line| -> Vec<(String, usize, usize)> {
            let all = std::iter::once(&line.keyword).chain(&line.words);
            all.map(|word| (word.text.to_string(), word.at.line, word.at.column)).collect()
        };
        let expected =
            [("stop", 2, 3), ("é", 2, 8), ("2", 2, 10)].map(|(text, line, column)| (text.to_string(), line, column));
        assert_eq!(words(&lines[0]), expected);
        assert_eq!(lines[0].end, Position { line: 2, column: 11 });
        assert_eq!(words(&lines[1]), [("Z".to_string(), 4, 1)]);
        assert_eq!(lines.len(), 2);
    }

    #[test]
    fn bytes_that_are_no_text_have_a_place() {
        let error = lines(b"size 1 1\n  \xc3\xa9 \xff").unwrap_err();
        assert_eq!((error.line, error.column), (2, 5));
    }
}
