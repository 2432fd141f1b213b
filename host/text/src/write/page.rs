//! Lines of text with the places that they tell.

use std::ops::Range;

use crate::fault::Fault;

/// The lines of block 0 or of a draw.
pub struct Page<'a> {
    indent: &'static str,
    bytes: &'a [u8],
    lines: Vec<Line>,
    told: Vec<bool>,
}

struct Line {
    text: String,
    places: Vec<Range<usize>>,
}

/// How many bytes a line of bytes has at most.
const BYTES_IN_A_LINE: usize = 16;

impl<'a> Page<'a> {
    pub fn new(indent: &'static str, bytes: &'a [u8]) -> Page<'a> {
        Page { indent, bytes, lines: Vec::new(), told: vec![false; bytes.len()] }
    }

    /// A line that tells these places.
    pub fn line(&mut self, places: &[Range<usize>], text: String) {
        self.tell(places);
        self.lines.push(Line { text, places: places.to_vec() });
    }

    /// Places that the number of other lines tells.
    pub fn tell(&mut self, places: &[Range<usize>]) {
        places.iter().cloned().flatten().for_each(|place| self.told[place] = true);
    }

    /// Lines for the bytes that nothing tells and that are not zero.
    pub fn bytes_left(&mut self) {
        let mut place = 0;
        while place < self.bytes.len() {
            let left = |at: &usize| self.bytes[*at] != 0 && !self.told[*at];
            let end = place + (place..self.bytes.len()).take(BYTES_IN_A_LINE).take_while(left).count();
            if end > place {
                let hex: Vec<String> = self.bytes[place..end].iter().map(|byte| format!("{byte:02x}")).collect();
                self.line(&[place..end], format!("bytes {place} {}", hex.join(" ")));
            }
            place = end.max(place + 1);
        }
    }

    /// The text, with a fault in the line that tells its place, or before all lines if none does.
    pub fn text(self, fault: Option<(Option<usize>, &Fault)>) -> String {
        let tells = |line: &Line, place: usize| line.places.iter().any(|places| places.contains(&place));
        let (place, fault) = fault.map_or((None, None), |(place, fault)| (place, Some(fault)));
        let faulty = place.and_then(|place| self.lines.iter().position(|line| tells(line, place)));
        let mut text = String::new();
        if let (Some(fault), None) = (fault, faulty) {
            text.push_str(&format!("{}// {fault}\n", self.indent));
        }
        for (number, line) in self.lines.iter().enumerate() {
            text.push_str(&format!("{}{}", self.indent, line.text));
            if let Some(fault) = fault.filter(|_| faulty == Some(number)) {
                text.push_str(&format!(" // {fault}"));
            }
            text.push('\n');
        }
        text
    }
}
