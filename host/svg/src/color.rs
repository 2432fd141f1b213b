//! CSS colours: hex, rgb(), rgba() and names.

mod names;

use crate::length::share;

/// Red, green and blue as bytes over 255, and alpha from 0 to 1.
#[derive(Clone, Copy, Debug, PartialEq)]
pub struct Color {
    pub rgb: [f32; 3],
    pub alpha: f64,
}

impl Color {
    pub const BLACK: Color = Color { rgb: [0.0; 3], alpha: 1.0 };

    fn bytes([r, g, b]: [u8; 3], alpha: f64) -> Color {
        Color { rgb: [r, g, b].map(|byte| f32::from(byte) / 255.0), alpha }
    }

    /// The four floats of the scene file under an opacity.
    pub fn channels(&self, opacity: f64) -> [f32; 4] {
        let [r, g, b] = self.rgb;
        [r, g, b, (self.alpha * opacity) as f32]
    }

    /// Reads a colour; `current` is what `currentColor` stands for.
    pub fn read(text: &str, current: Color) -> Result<Color, String> {
        let word = text.trim().to_ascii_lowercase();
        let color = match word.as_str() {
            "currentcolor" => Some(current),
            "transparent" => Some(Color { alpha: 0.0, ..Color::BLACK }),
            _ => match word.strip_prefix('#') {
                Some(digits) => hex(digits),
                None => function(&word).or_else(|| named(&word)),
            },
        };
        color.ok_or_else(|| format!("'{text}' is no colour that is known"))
    }
}

/// Three, four, six or eight hex digits.
fn hex(digits: &str) -> Option<Color> {
    let values: Vec<u8> =
        digits.chars().map(|digit| digit.to_digit(16).map(|value| value as u8)).collect::<Option<_>>()?;
    let bytes: Vec<u8> = match values.len() {
        3 | 4 => values.iter().map(|value| 17 * value).collect(),
        6 | 8 => values.chunks(2).map(|pair| 16 * pair[0] + pair[1]).collect(),
        _ => return None,
    };
    let alpha = bytes.get(3).map_or(1.0, |byte| f64::from(*byte) / 255.0);
    Some(Color::bytes([bytes[0], bytes[1], bytes[2]], alpha))
}

/// rgb(..) or rgba(..), with commas or spaces, and alpha behind a comma or a slash.
fn function(word: &str) -> Option<Color> {
    let list = word.strip_prefix("rgba(").or_else(|| word.strip_prefix("rgb("))?.strip_suffix(')')?;
    let values: Vec<&str> = list
        .split(|letter: char| letter == ',' || letter == '/' || letter.is_whitespace())
        .filter(|value| !value.is_empty())
        .collect();
    let alpha = match values.len() {
        3 => 1.0,
        4 => share(values[3]).ok()?,
        _ => return None,
    };
    Some(Color::bytes([channel(values[0])?, channel(values[1])?, channel(values[2])?], alpha))
}

/// A channel as a number to 255, or a percentage.
fn channel(value: &str) -> Option<u8> {
    let number = match value.strip_suffix('%') {
        Some(percents) => percents.parse::<f64>().ok()? * 255.0 / 100.0,
        None => value.parse::<f64>().ok()?,
    };
    // A cast cuts to 0..255.
    number.is_finite().then_some(number.round() as u8)
}

fn named(word: &str) -> Option<Color> {
    let (_, rgb) = names::NAMES.iter().find(|(name, _)| *name == word)?;
    let [_, r, g, b] = rgb.to_be_bytes();
    Some(Color::bytes([r, g, b], 1.0))
}

#[cfg(test)]
mod tests {
    use super::*;

    #[test]
    fn all_ways_to_write_a_colour() {
        let orange = Color::bytes([255, 165, 0], 1.0);
        for text in [
            "orange",
            " Orange ",
            "#ffa500",
            "#FFA500FF",
            "rgb(255,165,0)",
            "rgb(255 165 0 / 1)",
            "rgba(255, 165, 0, 100%)",
        ] {
            assert_eq!(Color::read(text, Color::BLACK), Ok(orange), "{text}");
        }
        assert_eq!(Color::read("#fa08", Color::BLACK), Ok(Color::bytes([255, 170, 0], 136.0 / 255.0)));
        assert_eq!(Color::read("rgb(100%,0%,50%)", Color::BLACK), Ok(Color::bytes([255, 0, 128], 1.0)));
        assert_eq!(Color::read("currentColor", orange), Ok(orange));
        assert_eq!(Color::read("transparent", orange).map(|color| color.alpha), Ok(0.0));
        for text in ["", "#", "#12345", "#ggg", "rgb(1,2)", "rgb(1,2,x)", "hsl(1,2,3)", "icc-color(x)", "#é"] {
            assert_eq!(Color::read(text, Color::BLACK), Err(format!("'{text}' is no colour that is known")), "{text}");
        }
    }
}
