//! Text to a scene file: line by line into the bytes of block 0 and of the draws, with the place in the text that each
//! byte comes from, so that a fault that the rules find has a line and a column too.

mod draw;
mod head;
mod line;
mod marks;

use std::fmt;

use reference::answer::NO_DRAW;
use scene::place::MOST_DRAWS;
use scene::{file_offset, seal, BLOCK, PAYLOAD};

use crate::fault::Fault;
use draw::DrawReader;
use head::HeadReader;
use line::{lines, Line};
use marks::Marked;

/// A place in the text; line and column are counted from 1, a column for each character.
#[derive(Clone, Copy, Debug, Default, PartialEq, Eq, PartialOrd, Ord)]
pub struct Position {
    pub line: usize,
    pub column: usize,
}

/// What is wrong with a text, and where.
#[derive(Clone, Debug, PartialEq, Eq)]
pub struct Error {
    pub line: usize,
    pub column: usize,
    pub message: String,
}

impl Error {
    fn new(at: Position, message: impl Into<String>) -> Error {
        Error { line: at.line, column: at.column, message: message.into() }
    }
}

impl fmt::Display for Error {
    fn fmt(&self, f: &mut fmt::Formatter) -> fmt::Result {
        write!(f, "{}:{}: {}", self.line, self.column, self.message)
    }
}

/// The scene file of a text, which the rules accept where a mask is lent; or all that is wrong, a line at a time.
pub fn to_scene(text: &[u8]) -> Result<Vec<u8>, Vec<Error>> {
    let read = Read::new(text)?;
    let file = read.file();
    match Fault::of(&file) {
        None => Ok(file),
        Some(fault) => Err(vec![Error::new(read.position_of(&fault), fault.to_string())]),
    }
}

/// The file of a text, whether the rules accept it or not.
pub fn to_file(text: &[u8]) -> Result<Vec<u8>, Vec<Error>> {
    Read::new(text).map(|read| read.file())
}

/// A text's block 0 and draws.
struct Read {
    head: Marked,
    draws: Vec<Marked>,
}

impl Read {
    fn new(text: &[u8]) -> Result<Read, Vec<Error>> {
        let mut reader = Reader { head: HeadReader::new(), draws: Vec::new(), errors: Vec::new() };
        for line in lines(text).map_err(|error| vec![error])? {
            if reader.draws.len() > MOST_DRAWS {
                break;
            }
            reader.line(&line);
        }
        reader.end()
    }

    /// The file with its checks.
    fn file(&self) -> Vec<u8> {
        let mut file = vec![0; file_offset(self.draws.len(), 0)];
        file[..self.head.bytes.len()].copy_from_slice(&self.head.bytes);
        let count = self.draws.len() as u16;
        file[4..6].copy_from_slice(&count.to_le_bytes());
        for (i, draw) in self.draws.iter().enumerate() {
            for (place, payload) in (0..).step_by(PAYLOAD).zip(draw.bytes.chunks(PAYLOAD)) {
                file[file_offset(i, place)..][..PAYLOAD].copy_from_slice(payload);
            }
        }
        seal(&mut file);
        file
    }

    /// Where in the text the bytes come from that a fault is about.
    fn position_of(&self, fault: &Fault) -> Position {
        match self.draws.get(fault.draw as usize) {
            Some(draw) if fault.draw != NO_DRAW => {
                let at = fault.offset - file_offset(fault.draw as usize, 0);
                draw.position(at - 4 * (at / BLOCK))
            }
            _ => self.head.position(fault.offset),
        }
    }
}

/// What has been read so far.
struct Reader {
    head: HeadReader,
    draws: Vec<DrawReader>,
    errors: Vec<Error>,
}

impl Reader {
    /// A line, or what is wrong with it; reading goes on behind it, but not behind a draw too many.
    fn line(&mut self, line: &Line) {
        let result = if line.keyword.text == "draw" { self.begin_draw(line) } else { self.field(line) };
        self.errors.extend(result.err());
    }

    fn begin_draw(&mut self, line: &Line) -> Result<(), Error> {
        line.expect_end(0)?;
        self.draws.push(DrawReader::new(line.keyword.at, self.head.edition()));
        if self.draws.len() > MOST_DRAWS {
            return Err(line.keyword.error("a scene has at most 64 draws"));
        }
        Ok(())
    }

    fn field(&mut self, line: &Line) -> Result<(), Error> {
        let keyword = line.keyword;
        match self.draws.last_mut() {
            None if draw::KEYWORDS.contains(&keyword.text) || crate::name::segment(keyword.text).is_some() => {
                Err(Error::new(keyword.at, format!("'{}' stands in a draw, and none has begun", keyword.text)))
            }
            None => self.head.line(line),
            Some(_) if head::KEYWORDS.contains(&keyword.text) => {
                Err(Error::new(keyword.at, format!("'{}' stands before the first draw", keyword.text)))
            }
            Some(draw) => draw.line(line),
        }
    }

    fn end(mut self) -> Result<Read, Vec<Error>> {
        let head = self.head.end(self.draws.first().map(|draw| draw.at()));
        let mut draws = Vec::new();
        for draw in self.draws {
            match draw.end() {
                Ok(draw) => draws.push(draw),
                Err(error) => self.errors.push(error),
            }
        }
        match head {
            Ok(head) if self.errors.is_empty() => Ok(Read { head, draws }),
            head => {
                self.errors.extend(head.err());
                self.errors.sort_by_key(|error| (error.line, error.column));
                Err(self.errors)
            }
        }
    }
}
