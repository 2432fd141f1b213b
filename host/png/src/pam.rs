//! PAM images: a header of words, then the pixels, the top row first and the colours not premultiplied.

use crate::{side, Picture};

/// Reads an image of 8 bits with three channels, or four of which the last is alpha.
pub fn read(bytes: &[u8]) -> Result<Picture, String> {
    let (mut width, mut height, mut depth, mut most) = (None, None, None, None);
    let mut rest = bytes;
    loop {
        let (line, behind) = line(rest).ok_or("the PAM header has no end")?;
        rest = behind;
        let (word, value) = line.split_once(' ').unwrap_or((line, ""));
        match word {
            "WIDTH" => width = Some(side(value.trim())?),
            "HEIGHT" => height = Some(side(value.trim())?),
            "DEPTH" => depth = Some(value.trim()),
            "MAXVAL" => most = Some(value.trim()),
            "ENDHDR" => break,
            _ => {}
        }
    }
    let (width, height) = width.zip(height).ok_or("the PAM header has no width or no height")?;
    let depth = match (depth, most) {
        (Some("3"), Some("255")) => 3,
        (Some("4"), Some("255")) => 4,
        _ => return Err("the PAM image does not have 3 or 4 channels of 255".to_string()),
    };
    if rest.len() != depth * width * height {
        return Err(format!("{} bytes for {width} by {height} pixels of {depth}", rest.len()));
    }
    let opaque = |pixel: &[u8]| [pixel[0], pixel[1], pixel[2], pixel.get(3).copied().unwrap_or(255)];
    Ok(Picture { width, height, rgba: rest.chunks(depth).flat_map(opaque).collect() })
}

/// The first line, and what is behind it.
fn line(bytes: &[u8]) -> Option<(&str, &[u8])> {
    let end = bytes.iter().position(|&byte| byte == b'\n')?;
    Some((std::str::from_utf8(&bytes[..end]).ok()?, &bytes[end + 1..]))
}

#[cfg(test)]
mod tests {
    use super::*;

    const HEADER: &str = "P7\nWIDTH 2\nHEIGHT 1\n# a comment\nDEPTH 4\nMAXVAL 255\nTUPLTYPE RGB_ALPHA\nENDHDR\n";

    fn image(header: &str, pixels: &[u8]) -> Vec<u8> {
        [header.as_bytes(), pixels].concat()
    }

    #[test]
    fn reads_with_and_without_alpha() {
        let pixels = [1, 2, 3, 4, 255, 0, 10, 255];
        assert_eq!(Picture::read(&image(HEADER, &pixels)), Ok(Picture { width: 2, height: 1, rgba: pixels.to_vec() }));
        let rgb = HEADER.replace("DEPTH 4", "DEPTH 3").replace("RGB_ALPHA", "RGB");
        let expected = Picture { width: 2, height: 1, rgba: vec![1, 2, 3, 255, 4, 5, 6, 255] };
        assert_eq!(Picture::read(&image(&rgb, &[1, 2, 3, 4, 5, 6])), Ok(expected));
    }

    #[test]
    fn tells_what_is_no_image() {
        for (from, to) in [
            ("WIDTH 2", "WIDTH 0"),
            ("WIDTH 2", "WIDTH 4294967297"),
            ("WIDTH 2", "WIDTH"),
            ("WIDTH 2\n", ""),
            ("HEIGHT 1", "HEIGHT 1025"),
            ("DEPTH 4", "DEPTH 1"),
            ("MAXVAL 255", "MAXVAL 65535"),
            ("MAXVAL 255\n", ""),
            ("ENDHDR\n", ""),
        ] {
            assert!(read(&image(&HEADER.replace(from, to), &[0; 8])).is_err(), "{from}: {to}");
        }
        assert!(read(&image(HEADER, &[0; 7])).is_err() && read(&image(HEADER, &[0; 9])).is_err());
        assert!(read(b"P7").is_err() && read(b"P7\n\xFF\n").is_err());
    }
}
