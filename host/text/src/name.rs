//! The names of numbers: blend modes, paint types, spreads, fill rules, flags and segments.

/// The names of the numbers from a first one on.
pub struct Names {
    first: u16,
    names: &'static [&'static str],
}

pub const BLENDS: Names = Names { first: 0x2000, names: &["Src", "SrcOver", "DstOver", "SrcIn", "DstIn"] };
pub const PAINTS: Names = Names { first: 0x1B00, names: &["color", "linear", "radial"] };
pub const SPREADS: Names = Names { first: 0x1C00, names: &["pad", "repeat", "reflect"] };
/// The flag's bit 0 by itself.
pub const FILL_RULES: Names = Names { first: 0, names: &["even-odd", "nonzero"] };

pub const RADIAL: u16 = 0x1B02;

impl Names {
    /// A number's name, or the number itself if it has none.
    pub fn text(&self, number: u16) -> String {
        let index = number.checked_sub(self.first).map(usize::from);
        match index.and_then(|index| self.names.get(index)) {
            Some(name) => name.to_string(),
            None => format!("0x{number:04x}"),
        }
    }

    /// The number that a name or a number in hex stands for.
    pub fn number(&self, word: &str) -> Option<u16> {
        match self.names.iter().position(|&name| name == word) {
            Some(index) => Some(self.first + index as u16),
            None => crate::number::hex_number(word),
        }
    }

    /// The names in a row, for messages.
    pub fn list(&self) -> String {
        self.names.join(", ")
    }
}

/// The names of the flags from bit 1 on; those from bit 5 on have none in the format.
const FLAGS: [&str; 15] = [
    "scissoring",
    "premultiplied",
    "mask",
    "transform",
    "bit5",
    "bit6",
    "bit7",
    "bit8",
    "bit9",
    "bit10",
    "bit11",
    "bit12",
    "bit13",
    "bit14",
    "bit15",
];
/// What stands where there are no flags.
pub const NO_FLAGS: &str = "none";

/// The flags but for the fill rule, in words.
pub fn flags_text(flags: u16) -> String {
    let named: Vec<&str> =
        FLAGS.iter().zip(1..).filter(|(_, bit)| flags >> bit & 1 == 1).map(|(name, _)| *name).collect();
    if named.is_empty() {
        NO_FLAGS.to_string()
    } else {
        named.join(" ")
    }
}

/// The number of a single flag.
pub fn flag(word: &str) -> Option<u16> {
    FLAGS.iter().position(|&name| name == word).map(|index| 2 << index)
}

/// The flags that the format has a name for, for messages.
pub fn flag_list() -> String {
    FLAGS[..4].join(", ")
}

/// The letters of the segment bytes from 0 on, an absolute one and a relative one for each segment: those of SVG.
const LETTERS: &str = "ZzMmLlHhVvQqCcTtSs";

/// The letter of a segment byte.
pub fn letter(byte: u8) -> Option<char> {
    LETTERS.chars().nth(byte.into())
}

/// The segment byte of a word that is one letter.
pub fn segment(word: &str) -> Option<u8> {
    let mut letters = word.chars();
    let (first, rest) = (letters.next()?, letters.next());
    let byte = LETTERS.chars().position(|letter| letter == first)?;
    rest.is_none().then_some(byte as u8)
}
