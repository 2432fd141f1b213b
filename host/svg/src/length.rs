//! Lengths in user units: numbers with or without a unit, and shares of the picture.

use crate::scanner::number_length;

/// The picture's size in user units, which percentages are of.
#[derive(Clone, Copy, Debug, PartialEq)]
pub struct Viewport {
    pub width: f64,
    pub height: f64,
}

impl Viewport {
    /// The length that percentages of a radius are of.
    fn diagonal(&self) -> f64 {
        ((self.width * self.width + self.height * self.height) / 2.0).sqrt()
    }
}

/// What a percentage is of.
#[derive(Clone, Copy, Debug, PartialEq, Eq)]
pub enum Axis {
    X,
    Y,
    /// Neither: a radius.
    Both,
}

/// A length as it is written.
#[derive(Clone, Copy, Debug, PartialEq)]
pub enum Length {
    Units(f64),
    /// A share of 1.
    Share(f64),
}

/// User units in an inch, which are CSS's pixels.
const INCH: f64 = 96.0;

impl Length {
    /// Reads a length, or says what is wrong with it.
    pub fn read(text: &str) -> Result<Length, String> {
        let (number, unit) = text.trim().split_at(number_length(text.trim()));
        let value = number.parse::<f64>().ok().filter(|value| value.is_finite());
        let factor = match unit.trim_start() {
            "" | "px" => Some(1.0),
            "in" => Some(INCH),
            "cm" => Some(INCH / 2.54),
            "mm" => Some(INCH / 25.4),
            "Q" => Some(INCH / 101.6),
            "pt" => Some(INCH / 72.0),
            "pc" => Some(INCH / 6.0),
            _ => None,
        };
        match (value, factor) {
            (Some(value), Some(factor)) => Ok(Length::Units(value * factor)),
            (Some(value), None) if unit == "%" => Ok(Length::Share(value / 100.0)),
            _ => Err(format!("'{text}' is no length that is known")),
        }
    }

    /// The length in user units.
    pub fn units(self, axis: Axis, viewport: &Viewport) -> f64 {
        match (self, axis) {
            (Length::Units(units), _) => units,
            (Length::Share(share), Axis::X) => share * viewport.width,
            (Length::Share(share), Axis::Y) => share * viewport.height,
            (Length::Share(share), Axis::Both) => share * viewport.diagonal(),
        }
    }
}

/// A number, or a percentage as a share, cut to 0..1.
pub fn share(text: &str) -> Result<f64, String> {
    match Length::read(text)? {
        Length::Units(value) | Length::Share(value) => Ok(value.clamp(0.0, 1.0)),
    }
}

#[cfg(test)]
mod tests {
    use super::*;

    #[test]
    fn units_and_shares() {
        let viewport = Viewport { width: 200.0, height: 100.0 };
        let cases = [
            ("1.5", 1.5),
            ("2px", 2.0),
            ("1in", 96.0),
            ("25.4mm", 96.0),
            (" 3pt ", 4.0),
            ("1 cm", 96.0 / 2.54),
            ("50%", 100.0),
        ];
        for (text, units) in cases {
            assert_eq!(Length::read(text).map(|length| length.units(Axis::X, &viewport)), Ok(units), "{text}");
        }
        assert_eq!(Length::Share(0.5).units(Axis::Y, &viewport), 50.0);
        assert_eq!(Length::Share(1.0).units(Axis::Both, &Viewport { width: 3.0, height: 3.0 }), 3.0);
        for text in ["", "px", "1em", "auto", "1e400"] {
            assert_eq!(Length::read(text), Err(format!("'{text}' is no length that is known")), "{text}");
        }
        assert_eq!([share("150%"), share("-1"), share(".25")], [Ok(1.0), Ok(0.0), Ok(0.25)]);
    }
}
