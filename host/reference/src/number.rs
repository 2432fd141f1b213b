//! Little-endian numbers in bytes, and exact conversion of floats to whole numbers.

pub fn u16_at(bytes: &[u8], at: usize) -> u16 {
    u16::from_le_bytes([bytes[at], bytes[at + 1]])
}

pub fn i16_at(bytes: &[u8], at: usize) -> i16 {
    u16_at(bytes, at) as i16
}

pub fn u32_at(bytes: &[u8], at: usize) -> u32 {
    u32::from(u16_at(bytes, at)) | u32::from(u16_at(bytes, at + 2)) << 16
}

pub fn i32_at(bytes: &[u8], at: usize) -> i32 {
    u32_at(bytes, at) as i32
}

pub fn f32_at(bytes: &[u8], at: usize) -> f32 {
    f32::from_bits(u32_at(bytes, at))
}

/// floor(scale * v + 1/2), exact, for a finite v and a scale of 2^log2_scale.
pub fn scaled(v: f32, log2_scale: i32) -> i64 {
    let (mantissa, exponent) = mantissa_and_exponent(v);
    // The wanted number is floor((2 * mantissa * 2^power + 1) / 2) with this power of two.
    let power = exponent + log2_scale;
    if power >= 0 {
        return mantissa << power;
    }
    let divisor_log2 = -power;
    if divisor_log2 > 26 {
        // |mantissa| is below 2^24, so the sum lies in 0..1.
        return 0;
    }
    (mantissa + (1 << (divisor_log2 - 1))).div_euclid(1 << divisor_log2)
}

/// The whole numbers with v = mantissa * 2^exponent.
fn mantissa_and_exponent(v: f32) -> (i64, i32) {
    let bits = v.to_bits();
    let fraction = i64::from(bits & 0x007F_FFFF);
    let biased = (bits >> 23 & 0xFF) as i32;
    assert!(biased != 0xFF, "only finite floats are converted");
    let (size, exponent) = if biased == 0 { (fraction, -149) } else { (fraction | 0x0080_0000, biased - 150) };
    let negative = bits >> 31 == 1;
    (if negative { -size } else { size }, exponent)
}

#[cfg(test)]
mod tests {
    use super::*;

    #[test]
    fn halves_go_up() {
        assert_eq!(scaled(0.5 / 65_536.0, 16), 1);
        assert_eq!(scaled(-0.5 / 65_536.0, 16), 0);
        assert_eq!(scaled(-1.5 / 65_536.0, 16), -1);
        assert_eq!(scaled(2.5 / 256.0, 8), 3);
    }

    #[test]
    fn extremes() {
        assert_eq!(scaled(32_768.0, 16), 1 << 31);
        assert_eq!(scaled(-32_768.0, 16), -(1 << 31));
        assert_eq!(scaled(f32::from_bits(1), 16), 0);
        assert_eq!(scaled(-f32::from_bits(1), 16), 0);
        assert_eq!(scaled(-0.0, 16), 0);
        assert_eq!(scaled(1.0, 16), 65_536);
    }

    /// The division is exact, so the same number comes from a wide rational.
    #[test]
    fn equals_a_rational_rounding() {
        let mut bits = 0x9E37_79B9_u32;
        for _ in 0..200_000 {
            bits ^= bits << 13;
            bits ^= bits >> 17;
            bits ^= bits << 5;
            // Exponents from -40 to 15, both signs.
            let v = f32::from_bits(bits & 0x807F_FFFF | (87 + (bits >> 23 & 0xFF) % 56) << 23);
            let (mantissa, exponent) = mantissa_and_exponent(v);
            // v = wide / 2^64 with a whole number wide.
            let wide = i128::from(mantissa) << (exponent + 64);
            let half = 1_i128 << 63;
            assert_eq!(i128::from(scaled(v, 16)), ((wide << 16) + half) >> 64);
            assert_eq!(i128::from(scaled(v, 8)), ((wide << 8) + half) >> 64);
        }
    }
}
