//! Numbers as words. A float's word stands for exactly its bits.

/// What stands before a float that is given by its bits, as a NaN is.
const BITS: &str = "bits:";

/// The shortest decimal that is read as the same float; infinite ones by name, a NaN by its bits.
pub fn float_text(bits: u32) -> String {
    let value = f32::from_bits(bits);
    if value.is_nan() {
        return format!("{BITS}{bits:08x}");
    }
    let text = format!("{value:?}");
    text.strip_suffix(".0").unwrap_or(&text).to_string()
}

/// The bits of the float that a word stands for, or what is wrong with it.
pub fn float(word: &str) -> Result<u32, String> {
    if let Some(digits) = word.strip_prefix(BITS) {
        return hex_digits(digits, 8).ok_or_else(|| format!("'{word}': {BITS} takes 8 hex digits"));
    }
    match word {
        "inf" => return Ok(f32::INFINITY.to_bits()),
        "-inf" => return Ok(f32::NEG_INFINITY.to_bits()),
        _ => {}
    }
    let decimal = word.bytes().all(|byte| byte.is_ascii_digit() || b"+-.eE".contains(&byte));
    match word.parse::<f32>() {
        Ok(value) if decimal && value.is_finite() => Ok(value.to_bits()),
        Ok(_) if decimal => Err(format!("'{word}' is larger than every float; an infinite one is inf or -inf")),
        _ => Err(format!("'{word}' is no number")),
    }
}

/// A whole number from `low` to `high`, or what is wrong with the word.
pub fn whole(word: &str, low: i64, high: i64) -> Result<i64, String> {
    let digits = word.strip_prefix('-').unwrap_or(word);
    if digits.is_empty() || !digits.bytes().all(|byte| byte.is_ascii_digit()) {
        return Err(format!("'{word}' is no whole number"));
    }
    match word.parse::<i64>() {
        Ok(value) if (low..=high).contains(&value) => Ok(value),
        _ => Err(format!("{word} is not in {low}..{high}")),
    }
}

/// A number of 16 bits as 0x and hex digits.
pub fn hex_number(word: &str) -> Option<u16> {
    let digits = word.strip_prefix("0x")?;
    let width = digits.len();
    ((1..=4).contains(&width)).then_some(())?;
    hex_digits(digits, width).and_then(|number| u16::try_from(number).ok())
}

/// A byte as two hex digits.
pub fn hex_byte(word: &str) -> Option<u8> {
    hex_digits(word, 2).and_then(|number| u8::try_from(number).ok())
}

/// Exactly so many hex digits, at most 8.
pub fn hex_digits(word: &str, width: usize) -> Option<u32> {
    let digits = word.len() == width && word.bytes().all(|byte| byte.is_ascii_hexdigit());
    if digits {
        u32::from_str_radix(word, 16).ok()
    } else {
        None
    }
}

#[cfg(test)]
mod tests {
    use super::*;

    #[test]
    fn floats_keep_their_bits() {
        let mut bits = 1_u32;
        for _ in 0..300_000 {
            bits = bits.wrapping_mul(1_664_525).wrapping_add(1_013_904_223);
            assert_eq!(float(&float_text(bits)), Ok(bits));
        }
        let special = [0, 0x8000_0000, 1, 0x8000_0001, 0x7F80_0000, 0xFF80_0000, 0x7F80_0001, 0xFFC0_1234, 0x7F7F_FFFF];
        for bits in special {
            assert_eq!(float(&float_text(bits)), Ok(bits));
        }
    }

    #[test]
    fn floats_are_short() {
        let cases = [
            (0.0_f32, "0"),
            (-0.0, "-0"),
            (0.0625, "0.0625"),
            (0.1, "0.1"),
            (-3.0, "-3"),
            (1e-40, "1e-40"),
            (f32::MAX, "3.4028235e38"),
            (f32::NEG_INFINITY, "-inf"),
        ];
        for (value, text) in cases {
            assert_eq!(float_text(value.to_bits()), text);
        }
        assert_eq!(float_text(0x7FC0_0001), "bits:7fc00001");
    }

    #[test]
    fn words_that_are_no_floats() {
        for word in ["", "-", "nan", "NaN", "infinity", "1e", "0x10", "bits:", "bits:7fc0000", "bits:7fc0000g", "1,5"] {
            assert!(float(word).is_err(), "{word}");
        }
        assert_eq!(float("1e39").unwrap_err(), "'1e39' is larger than every float; an infinite one is inf or -inf");
    }

    #[test]
    fn whole_numbers_within_limits() {
        assert_eq!(whole("-32768", -32_768, 32_767), Ok(-32_768));
        assert_eq!(whole("32768", -32_768, 32_767).unwrap_err(), "32768 is not in -32768..32767");
        assert_eq!(whole("99999999999999999999", 0, 9).unwrap_err(), "99999999999999999999 is not in 0..9");
        for word in ["", "-", "+1", "1.0", "0x1", "--1"] {
            assert!(whole(word, -9, 9).is_err(), "{word}");
        }
    }
}
