//! A draw: its fields in any order into its joined payloads.

use scene::path::coordinates_of;
use scene::{first_coordinate, place, Draw, DRAW_BYTES};

use super::head::{bytes, once};
use super::line::{Line, Word};
use super::marks::{Marked, Piece};
use super::{Error, Position};
use crate::name::{self, Names};
use crate::{color, number};

/// The keywords of a draw, but for the segments' letters.
pub const KEYWORDS: [&str; 14] = [
    "fill", "flags", "blend", "paint", "spread", "matrix", "color", "linear", "scissor", "radial", "stop", "scales",
    "biases", "segment",
];

/// The edition with a transformation.
const TRANSFORMED: u16 = 1;

/// A draw as far as it has been read. What the text does not say is as in `scene::Draw::default()`.
pub struct DrawReader {
    marked: Marked,
    edition: u16,
    seen: Vec<String>,
    scissors: usize,
    segments: usize,
    /// The place of the next coordinate.
    coordinate: usize,
    /// Whether there was no room for a segment; the segments behind it are passed over.
    overfull: bool,
    /// The five values and where they stand, to be put where the paint is known.
    radial: Option<(Position, Vec<Piece>)>,
    stops: Vec<(Position, Vec<Piece>)>,
    /// Lines of bytes, which go over all others.
    patches: Vec<(usize, Vec<Piece>)>,
}

impl DrawReader {
    pub fn new(at: Position, edition: u16) -> DrawReader {
        DrawReader {
            marked: Marked::new(Draw::default().bytes(edition).to_vec(), at),
            edition,
            seen: Vec::new(),
            scissors: 0,
            segments: 0,
            coordinate: first_coordinate(edition),
            overfull: false,
            radial: None,
            stops: Vec::new(),
            patches: Vec::new(),
        }
    }

    /// Where it begins.
    pub fn at(&self) -> Position {
        self.marked.start()
    }

    pub fn line(&mut self, line: &Line) -> Result<(), Error> {
        let keyword = line.keyword;
        match keyword.text {
            "bytes" => self.patches.push(bytes(line, 0..DRAW_BYTES)?),
            "scissor" => self.scissor(line)?,
            "stop" => self.stop(line)?,
            "segment" => self.raw_segment(line)?,
            word if name::segment(word).is_some() => self.path(line)?,
            word if KEYWORDS.contains(&word) => {
                once(&mut self.seen, keyword)?;
                self.field(line)?;
            }
            word => {
                let keywords = KEYWORDS.join(", ");
                let message = format!("'{word}' is none of {keywords}, a letter of ZzMmLlHhVvQqCcTtSs, draw");
                return Err(keyword.error(message));
            }
        }
        Ok(())
    }

    /// A field that a draw has once.
    fn field(&mut self, line: &Line) -> Result<(), Error> {
        match line.keyword.text {
            "fill" => self.fill_rule(line),
            "flags" => self.flags(line),
            "blend" => self.named(line, place::BLEND, &name::BLENDS),
            "paint" => self.named(line, place::PAINT, &name::PAINTS),
            "spread" => self.named(line, place::SPREAD, &name::SPREADS),
            "matrix" => self.floats::<6>(line, place::MATRIX, "sx shy shx sy tx ty"),
            "linear" => self.floats::<4>(line, place::LINEAR, "x0 y0 x1 y1"),
            "color" => self.color(line),
            "radial" => self.radial(line),
            "scales" => self.transformation(line, place::SCALES),
            _ => self.transformation(line, place::BIASES),
        }
    }

    fn named(&mut self, line: &Line, to: usize, names: &Names) -> Result<(), Error> {
        let [word] = line.exactly("one word")?;
        let number = names.number(word.text).ok_or_else(|| not_named(word, &names.list()))?;
        self.marked.put(to, &[Piece { at: word.at, bytes: number.to_le_bytes().to_vec() }]);
        Ok(())
    }

    fn fill_rule(&mut self, line: &Line) -> Result<(), Error> {
        let [word] = line.exactly("one word")?;
        match name::FILL_RULES.number(word.text) {
            Some(rule @ 0..=1) => self.set_flags(rule, word.at),
            _ => return Err(not_named(word, &name::FILL_RULES.list())),
        }
        Ok(())
    }

    fn flags(&mut self, line: &Line) -> Result<(), Error> {
        if line.words.is_empty() {
            return Err(Error::new(line.end, format!("'flags' takes {}, or of {}", name::NO_FLAGS, name::flag_list())));
        }
        if line.words[0].text == name::NO_FLAGS {
            return line.expect_end(1);
        }
        for word in &line.words {
            let flag = name::flag(word.text).ok_or_else(|| not_named(*word, &name::flag_list()))?;
            self.set_flags(flag, word.at);
        }
        Ok(())
    }

    /// A number of 16 bits as it stands by now.
    fn number(&self, at: usize) -> u16 {
        u16::from_le_bytes([self.marked.bytes[at], self.marked.bytes[at + 1]])
    }

    fn set_flags(&mut self, flags: u16, at: Position) {
        let before = self.number(place::FLAGS);
        self.marked.put(place::FLAGS, &[Piece { at, bytes: (before | flags).to_le_bytes().to_vec() }]);
    }

    fn floats<const N: usize>(&mut self, line: &Line, to: usize, what: &str) -> Result<(), Error> {
        let words: [Word; N] = line.exactly(what)?;
        self.marked.put(to, &float_pieces(&words)?);
        Ok(())
    }

    fn color(&mut self, line: &Line) -> Result<(), Error> {
        let pieces = color_pieces(line, &line.words)?;
        self.marked.put(place::COLOR, &pieces);
        Ok(())
    }

    fn radial(&mut self, line: &Line) -> Result<(), Error> {
        let words: [Word; 5] = line.exactly("cx cy fx fy r")?;
        self.radial = Some((line.keyword.at, float_pieces(&words)?));
        Ok(())
    }

    fn transformation(&mut self, line: &Line, to: usize) -> Result<(), Error> {
        if self.edition != TRANSFORMED {
            let message = format!("only edition 1 has '{}', and this is edition {}", line.keyword.text, self.edition);
            return Err(line.keyword.error(message));
        }
        self.floats::<4>(line, to, "R G B A")
    }

    fn scissor(&mut self, line: &Line) -> Result<(), Error> {
        let words: [Word; 4] = line.exactly("x y width height")?;
        if self.scissors == place::MOST_SCISSORS {
            return Err(line.keyword.error("a draw has at most 4 scissors"));
        }
        let mut pieces = Vec::new();
        for word in words {
            let value =
                number::whole(word.text, i32::MIN.into(), i32::MAX.into()).map_err(|message| word.error(message))?;
            pieces.push(Piece { at: word.at, bytes: (value as i32).to_le_bytes().to_vec() });
        }
        self.marked.put(place::SCISSORS + place::SCISSOR_BYTES * self.scissors, &pieces);
        self.scissors += 1;
        Ok(())
    }

    fn stop(&mut self, line: &Line) -> Result<(), Error> {
        let (offset, color) = match &line.words[..] {
            [offset, color @ ..] => (offset, color),
            [] => return Err(Error::new(line.end, "'stop' takes an offset and a colour")),
        };
        let mut pieces = float_pieces(&[*offset])?;
        pieces.extend(color_pieces(line, color)?);
        self.stops.push((line.keyword.at, pieces));
        Ok(())
    }

    /// One or more segments, each a letter and its coordinates.
    fn path(&mut self, line: &Line) -> Result<(), Error> {
        let mut words = std::iter::once(&line.keyword).chain(&line.words).peekable();
        while let Some(letter) = words.next() {
            let byte = name::segment(letter.text).ok_or_else(|| {
                letter.error(format!("'{}' is no letter of a segment: one of ZzMmLlHhVvQqCcTtSs", letter.text))
            })?;
            let count = coordinates_of(byte).unwrap_or(0);
            let mut coordinates = Vec::new();
            while coordinates.len() < count {
                match words.next() {
                    Some(word) => coordinates.push(*word),
                    None => {
                        let message =
                            format!("'{}' takes {count} coordinates, and here are {}", letter.text, coordinates.len());
                        return Err(Error::new(line.end, message));
                    }
                }
            }
            self.segment(byte, letter.at, &coordinates)?;
        }
        Ok(())
    }

    /// A segment byte by its number, without coordinates: what only refused scenes have.
    fn raw_segment(&mut self, line: &Line) -> Result<(), Error> {
        let [word] = line.exactly("a number")?;
        let byte = number::whole(word.text, 0, 255).map_err(|message| word.error(message))? as u8;
        self.segment(byte, word.at, &[])
    }

    /// A segment and its coordinates, as long as there is room.
    fn segment(&mut self, byte: u8, at: Position, coordinates: &[Word]) -> Result<(), Error> {
        if self.overfull {
            return Ok(());
        }
        if self.segments == place::MOST_SEGMENTS {
            self.overfull = true;
            return Err(Error::new(at, "a draw has at most 128 segments"));
        }
        for word in coordinates {
            let value =
                number::whole(word.text, i16::MIN.into(), i16::MAX.into()).map_err(|message| word.error(message))?;
            if self.coordinate == DRAW_BYTES {
                self.overfull = true;
                let most = place::most_coordinates(self.edition);
                return Err(word.error(format!("a draw of edition {} has at most {most} coordinates", self.edition)));
            }
            self.marked.put(self.coordinate, &[Piece { at: word.at, bytes: (value as i16).to_le_bytes().to_vec() }]);
            self.coordinate += 2;
        }
        self.marked.put(place::SEGMENTS + self.segments, &[Piece { at, bytes: vec![byte] }]);
        self.segments += 1;
        Ok(())
    }

    /// The draw's bytes: what depends on the paint, the counts, and the lines of bytes over all.
    pub fn end(mut self) -> Result<Marked, Error> {
        let radial = self.number(place::PAINT) == name::RADIAL;
        match &self.radial {
            Some((_, pieces)) if radial => self.marked.put(place::RADIAL, pieces),
            Some((at, _)) => return Err(Error::new(*at, "only a draw with 'paint radial' has 'radial'")),
            None => {}
        }
        let before = usize::from(radial);
        if let Some((at, _)) = self.stops.get(place::MOST_STOPS - before) {
            let message = if radial { "a radial draw has at most 31 stops" } else { "a draw has at most 32 stops" };
            return Err(Error::new(*at, message));
        }
        for (i, (_, pieces)) in self.stops.iter().enumerate() {
            self.marked.put(place::STOPS + place::STOP_BYTES * (before + i), pieces);
        }
        let counts = [self.segments as u8, self.scissors as u8, self.stops.len() as u8];
        self.marked.bytes[place::SEGMENT_COUNT..place::BEHIND_COUNTS].copy_from_slice(&counts);
        for (to, pieces) in &self.patches {
            self.marked.put(*to, pieces);
        }
        Ok(self.marked)
    }
}

fn not_named(word: Word, names: &str) -> Error {
    word.error(format!("'{}' is none of {names}", word.text))
}

fn float_pieces(words: &[Word]) -> Result<Vec<Piece>, Error> {
    words.iter().map(|word| float_piece(*word)).collect()
}

fn float_piece(word: Word) -> Result<Piece, Error> {
    let bits = number::float(word.text).map_err(|message| word.error(message))?;
    Ok(Piece { at: word.at, bytes: bits.to_le_bytes().to_vec() })
}

/// A colour at the end of a line: one word in hex, or four floats.
fn color_pieces(line: &Line, words: &[Word]) -> Result<Vec<Piece>, Error> {
    match words {
        [word] if word.text.starts_with('#') => {
            let channels = color::channels(word.text).map_err(|message| word.error(message))?;
            Ok(channels.iter().map(|bits| Piece { at: word.at, bytes: bits.to_le_bytes().to_vec() }).collect())
        }
        [_, _, _, _] => float_pieces(words),
        [first, second, ..] if first.text.starts_with('#') => {
            Err(second.error(format!("'{}' is one word too many", second.text)))
        }
        [_, _, _, _, fifth, ..] => Err(fifth.error(format!("'{}' is one word too many", fifth.text))),
        _ => Err(Error::new(line.end, "here belongs a colour: #rrggbbaa, #rrggbb or four numbers R G B A")),
    }
}
