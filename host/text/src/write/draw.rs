//! A draw's joined payloads as lines of text.

use scene::path::coordinates_of;
use scene::{first_coordinate, place, DRAW_BYTES};

use crate::write::page::Page;
use crate::{color, name, number};

/// The lines of a draw in an edition.
pub fn page(bytes: &[u8], edition: u16) -> Page<'_> {
    let mut writer = Writer { bytes, page: Page::new("  ", bytes) };
    writer.numbers();
    writer.floats("matrix", place::MATRIX, 6);
    writer.page.line(&[place::COLOR..place::LINEAR], format!("color {}", writer.color(place::COLOR)));
    writer.floats("linear", place::LINEAR, 4);
    writer.scissors();
    writer.stops();
    if edition == 1 {
        writer.floats("scales", place::SCALES, 4);
        writer.floats("biases", place::BIASES, 4);
    }
    writer.path(first_coordinate(edition));
    writer.page.bytes_left();
    writer.page
}

struct Writer<'a> {
    bytes: &'a [u8],
    page: Page<'a>,
}

impl Writer<'_> {
    fn u16_at(&self, at: usize) -> u16 {
        u16::from_le_bytes([self.bytes[at], self.bytes[at + 1]])
    }

    fn u32_at(&self, at: usize) -> u32 {
        u32::from(self.u16_at(at)) | u32::from(self.u16_at(at + 2)) << 16
    }

    /// The colour at a place.
    fn color(&self, at: usize) -> String {
        color::text(std::array::from_fn(|channel| self.u32_at(at + 4 * channel)))
    }

    /// Fill rule, flags, blend mode, paint type and spread.
    fn numbers(&mut self) {
        let flags = self.u16_at(place::FLAGS);
        self.page.line(&[], format!("fill {}", name::FILL_RULES.text(flags & 1)));
        self.number(place::FLAGS, format!("flags {}", name::flags_text(flags)));
        self.number(place::BLEND, format!("blend {}", name::BLENDS.text(self.u16_at(place::BLEND))));
        self.number(place::PAINT, format!("paint {}", name::PAINTS.text(self.u16_at(place::PAINT))));
        self.number(place::SPREAD, format!("spread {}", name::SPREADS.text(self.u16_at(place::SPREAD))));
    }

    /// A line that tells a number of 16 bits.
    fn number(&mut self, at: usize, text: String) {
        self.page.line(&[at..at + 2], text);
    }

    /// A keyword and the floats from a place on.
    fn floats(&mut self, keyword: &str, at: usize, count: usize) {
        let words: Vec<String> = (0..count).map(|i| number::float_text(self.u32_at(at + 4 * i))).collect();
        self.page.line(&[at..at + 4 * count], format!("{keyword} {}", words.join(" ")));
    }

    /// How many things a count byte says there are, if there is room for so many; the lines then tell it.
    fn count(&mut self, at: usize, most: usize) -> usize {
        let count = usize::from(self.bytes[at]);
        if count <= most {
            self.page.tell(&[at..at + 1]);
        }
        count.min(most)
    }

    fn scissors(&mut self) {
        for i in 0..self.count(place::SCISSOR_COUNT, place::MOST_SCISSORS) {
            let at = place::SCISSORS + place::SCISSOR_BYTES * i;
            let words = [0, 4, 8, 12].map(|field| (self.u32_at(at + field) as i32).to_string());
            self.page.line(&[at..at + place::SCISSOR_BYTES], format!("scissor {}", words.join(" ")));
        }
    }

    /// The radial gradient of a radial draw, then the stops.
    fn stops(&mut self) {
        let radial = self.u16_at(place::PAINT) == name::RADIAL;
        if radial {
            self.floats("radial", place::RADIAL, 5);
        }
        let places = usize::from(radial);
        for i in 0..self.count(place::STOP_COUNT, place::MOST_STOPS - places) {
            let at = place::STOPS + place::STOP_BYTES * (places + i);
            let offset = number::float_text(self.u32_at(at));
            self.page.line(&[at..at + place::STOP_BYTES], format!("stop {offset} {}", self.color(at + 4)));
        }
    }

    /// A line for each segment with its coordinates. From the first on that is none of the format's, or has too few
    /// coordinates left, segments come as bytes alone.
    fn path(&mut self, first_coordinate: usize) {
        let mut next = Some(first_coordinate);
        for at in (place::SEGMENTS..).take(self.count(place::SEGMENT_COUNT, place::MOST_SEGMENTS)) {
            let byte = self.bytes[at];
            let end = next.zip(coordinates_of(byte)).map(|(next, count)| next + 2 * count);
            match (next, end.filter(|&end| end <= DRAW_BYTES), name::letter(byte)) {
                (Some(from), Some(end), Some(letter)) => {
                    let coordinates = (from..end).step_by(2).map(|from| format!(" {}", self.u16_at(from) as i16));
                    let text: String = std::iter::once(letter.to_string()).chain(coordinates).collect();
                    self.page.line(&[at..at + 1, from..end], text);
                    next = Some(end);
                }
                _ => {
                    self.page.line(&[at..at + 1], format!("segment {byte}"));
                    next = None;
                }
            }
        }
    }
}
