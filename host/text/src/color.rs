//! A colour as a word: #rrggbbaa where its four floats are exactly bytes over 255, and else four floats.

use crate::number;

/// The float of a byte: c / 255.
fn channel(byte: u8) -> u32 {
    (f32::from(byte) / 255.0).to_bits()
}

/// The byte whose float this is.
fn byte(bits: u32) -> Option<u8> {
    let near = (f32::from_bits(bits) * 255.0).round();
    // A cast cuts to 0..255 and gives 0 for a NaN.
    Some(near as u8).filter(|&byte| channel(byte) == bits)
}

/// Four bytes in hex.
pub fn bytes_text(bytes: [u8; 4]) -> String {
    let [r, g, b, a] = bytes;
    format!("#{r:02x}{g:02x}{b:02x}{a:02x}")
}

/// Four channels, R, G, B, A, as bits of floats.
pub fn text(channels: [u32; 4]) -> String {
    match channels.map(byte) {
        [Some(r), Some(g), Some(b), Some(a)] => bytes_text([r, g, b, a]),
        _ => channels.map(number::float_text).join(" "),
    }
}

/// The bytes of #rrggbbaa, or of #rrggbb, which is opaque.
pub fn bytes(word: &str) -> Result<[u8; 4], String> {
    let digits = word.strip_prefix('#').unwrap_or("");
    let number = match digits.len() {
        6 => number::hex_digits(digits, 6).map(|rgb| rgb << 8 | 0xFF),
        _ => number::hex_digits(digits, 8),
    };
    number.map(u32::to_be_bytes).ok_or_else(|| format!("'{word}' is no colour: #rrggbbaa or #rrggbb"))
}

/// The channels of a colour in hex, as bits of floats.
pub fn channels(word: &str) -> Result<[u32; 4], String> {
    Ok(bytes(word)?.map(channel))
}

#[cfg(test)]
mod tests {
    use super::*;

    #[test]
    fn bytes_have_hex_digits_and_others_floats() {
        for byte in 0..=255 {
            let word = text([channel(byte); 4]);
            assert_eq!(word, format!("#{byte:02x}{byte:02x}{byte:02x}{byte:02x}"));
            assert_eq!(channels(&word), Ok([channel(byte); 4]));
        }
        assert_eq!(text([0, 0x8000_0000, 0, 0]), "0 -0 0 0");
        assert_eq!(text([0x3F00_0000, 0, 0x7F80_0000, 0x3F80_0000]), "0.5 0 inf 1");
        assert_eq!(text([0, 0, 0, 0x7FC0_0000]), "0 0 0 bits:7fc00000");
    }

    #[test]
    fn six_digits_are_opaque() {
        assert_eq!(bytes("#102030"), Ok([16, 32, 48, 255]));
        for word in ["", "#", "#10203", "#1020304", "#10203040f", "102030", "#10203g", "#é0203"] {
            assert!(bytes(word).is_err(), "{word}");
        }
    }
}
