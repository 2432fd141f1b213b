//! Turns pictures into PNG images: printed ones, as the drawing programs write them, and PAM images.
#![forbid(unsafe_code)]

mod deflate;
pub mod difference;
mod pam;

/// The greatest width and height of a picture.
const MOST_PIXELS: usize = 1_024;

/// A picture with straight alpha, its top row first.
#[derive(Clone, Debug, PartialEq, Eq)]
pub struct Picture {
    pub width: usize,
    pub height: usize,
    /// R, G, B, A for each pixel.
    pub rgba: Vec<u8>,
}

/// Why there is no picture.
#[derive(Clone, Debug, PartialEq, Eq)]
pub enum Problem {
    /// The text says that a scene was refused, or is past a program's limits.
    Refused(String),
    /// What is wrong with it, in words.
    Unreadable(String),
}

fn unreadable(reason: &str) -> Problem {
    Problem::Unreadable(reason.to_string())
}

/// A width or a height.
fn side(word: &str) -> Result<usize, String> {
    match word.parse() {
        Ok(side) if (1..=MOST_PIXELS).contains(&side) => Ok(side),
        _ => Err(format!("no picture: {word:.80} is not a width or height of 1 to 1,024")),
    }
}

/// A pixel of 8 hex digits.
fn pixel(word: &str) -> Option<[u8; 4]> {
    let digits = word.len() == 8 && word.bytes().all(|byte| byte.is_ascii_hexdigit());
    digits.then(|| u32::from_str_radix(word, 16).map(u32::to_be_bytes).ok())?
}

impl Picture {
    /// Reads a printed picture or a PAM image.
    pub fn read(bytes: &[u8]) -> Result<Picture, Problem> {
        if bytes.starts_with(b"P7") {
            return pam::read(bytes).map_err(Problem::Unreadable);
        }
        let text =
            std::str::from_utf8(bytes).map_err(|_| unreadable("this is neither a printed picture nor a PAM image"))?;
        match text.lines().next() {
            Some(line) if line == "limit" || line.starts_with("refused ") => Err(Problem::Refused(line.to_string())),
            _ => Picture::parse(text).map_err(Problem::Unreadable),
        }
    }

    /// Reads a printed picture: "width height", then the rows with 8 hex digits for each premultiplied pixel. A
    /// redraw's line with the four numbers of its area may come first.
    fn parse(text: &str) -> Result<Picture, String> {
        let mut lines = text.lines().enumerate().peekable();
        if lines.peek().map_or(false, |(_, line)| line.split(' ').count() == 4) {
            lines.next();
        }
        let (_, size) = lines.next().ok_or("the input is empty")?;
        let sides: Vec<&str> = size.split(' ').collect();
        let (width, height) = match sides[..] {
            [width, height] => (side(width)?, side(height)?),
            _ => return Err(format!("no picture: {size:.80}")),
        };
        let mut rgba = Vec::with_capacity(4 * width * height);
        for (number, line) in lines {
            let pixels: Option<Vec<[u8; 4]>> = line.split(' ').map(pixel).collect();
            match pixels {
                Some(pixels) if pixels.len() == width && rgba.len() < 4 * width * height => {
                    rgba.extend(pixels.into_iter().flat_map(straight));
                }
                _ => return Err(format!("line {} is no row of a picture of {width} by {height}", number + 1)),
            }
        }
        match rgba.len() / 4 / width {
            rows if rows == height => Ok(Picture { width, height, rgba }),
            rows => Err(format!("{rows} rows for {width} by {height}")),
        }
    }

    /// The PNG image.
    pub fn png(&self) -> Vec<u8> {
        let mut png = b"\x89PNG\r\n\x1a\n".to_vec();
        let mut header = Vec::new();
        header.extend_from_slice(&(self.width as u32).to_be_bytes());
        header.extend_from_slice(&(self.height as u32).to_be_bytes());
        // Eight bits, RGB with alpha, and the only compression, filter method and order that there is.
        header.extend_from_slice(&[8, 6, 0, 0, 0]);
        chunk(&mut png, b"IHDR", &header);
        chunk(&mut png, b"IDAT", &deflate::zlib(&self.filtered_rows()));
        chunk(&mut png, b"IEND", &[]);
        png
    }

    /// Each row as its difference from the row above, which leaves runs of equal bytes.
    fn filtered_rows(&self) -> Vec<u8> {
        const UP: u8 = 2;
        let mut filtered = Vec::new();
        let mut above = vec![0; 4 * self.width];
        for row in self.rgba.chunks(4 * self.width) {
            filtered.push(UP);
            filtered.extend(row.iter().zip(&above).map(|(byte, up)| byte.wrapping_sub(*up)));
            above.copy_from_slice(row);
        }
        filtered
    }
}

/// Takes alpha out of the colours.
fn straight([r, g, b, a]: [u8; 4]) -> [u8; 4] {
    let divided = |c: u8| match u32::from(a) {
        0 => 0,
        alpha => ((u32::from(c) * 255 + alpha / 2) / alpha).min(255) as u8,
    };
    [divided(r), divided(g), divided(b), a]
}

fn chunk(png: &mut Vec<u8>, name: &[u8; 4], content: &[u8]) {
    png.extend_from_slice(&(content.len() as u32).to_be_bytes());
    let start = png.len();
    png.extend_from_slice(name);
    png.extend_from_slice(content);
    let sum = crc(&png[start..]);
    png.extend_from_slice(&sum.to_be_bytes());
}

/// The CRC-32 of a chunk.
fn crc(bytes: &[u8]) -> u32 {
    !bytes.iter().fold(!0_u32, |crc, &byte| {
        (0..8).fold(crc ^ u32::from(byte), |crc, _| if crc & 1 == 1 { crc >> 1 ^ 0xEDB8_8320 } else { crc >> 1 })
    })
}

#[cfg(test)]
mod tests {
    use super::*;

    #[test]
    fn reads_both_programs_output() {
        let drawn = "2 1\n000000ff 40000080\n";
        let expected = Picture { width: 2, height: 1, rgba: vec![0, 0, 0, 255, 128, 0, 0, 128] };
        assert_eq!(Picture::read(drawn.as_bytes()), Ok(expected.clone()));
        assert_eq!(Picture::read(format!("0 0 2 1\n{drawn}").as_bytes()), Ok(expected));
        let line = "refused b002 64";
        assert_eq!(Picture::read(format!("{line}\n").as_bytes()), Err(Problem::Refused(line.into())));
        assert_eq!(Picture::read(b"limit\n"), Err(Problem::Refused("limit".into())));
    }

    /// What is no picture is told: nothing is taken for granted of sizes, rows and digits.
    #[test]
    fn tells_what_is_no_picture() {
        let texts = [
            "",
            "\n",
            "0 0\n",
            "0 1\n",
            "2 0\n",
            "1025 1\n",
            "99999999999999999999 99999999999999999999\n",
            "18446744073709551615 18446744073709551615\n00000000\n",
            "-1 1\n",
            "2\n",
            "2 1 1\n",
            "0 0 2 1\n",
            "2 1\n",
            "2 1\n000000ff\n",
            "2 1\n000000ff 000000ff 000000ff\n",
            "2 1\n000000ff 000000ff\n000000ff 000000ff\n",
            "2 2\n000000ff 000000ff\n",
            "2 1\n000000ff +00000ff\n",
            "2 1\n000000ff 0000ff\n",
            "2 1\n000000ff 000000f\u{e9}\n",
            "2 1\n000000ff  000000ff\n",
        ];
        for bytes in texts.iter().map(|text| text.as_bytes()).chain([&b"\xFF\xFE"[..], b"P6\n1 1\n255\nabc"]) {
            assert!(matches!(Picture::read(bytes), Err(Problem::Unreadable(_))), "{bytes:?}");
        }
    }

    #[test]
    fn the_end_chunk_has_its_known_sum() {
        let png = Picture { width: 1, height: 1, rgba: vec![0; 4] }.png();
        assert_eq!(png[png.len() - 12..], *b"\0\0\0\0IEND\xAE\x42\x60\x82");
    }
}
