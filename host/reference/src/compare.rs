//! Two pictures of one named size compared (paper 02, P7): every pixel is looked at by itself.

use crate::answer::{Rectangle, ACCEPTED, ILLEGAL_ARGUMENT, UNSUPPORTED_IMAGE_FORMAT};

/// The nine numbers of a comparison.
#[derive(Clone, Copy, Debug, Default, PartialEq, Eq)]
pub struct Comparison {
    pub code: u32,
    /// 1 for equal pictures, else 0.
    pub equal: u32,
    pub count: u32,
    pub x: u32,
    pub y: u32,
    pub width: u32,
    pub height: u32,
    pub largest: u32,
    pub least: u32,
}

/// Compares two surfaces of `width` by `height` pixels.
pub fn compare(width: u32, height: u32, a: &[u8], b: &[u8]) -> Comparison {
    let code = refusal(width, height, a, b);
    if code != ACCEPTED {
        return Comparison { code, ..Comparison::default() };
    }
    let differing: Vec<(u32, u32)> = (0..height)
        .flat_map(|y| (0..width).map(move |x| (x, y)))
        .filter(|&(x, y)| pixel(width, a, x, y) != pixel(width, b, x, y))
        .collect();
    if differing.is_empty() {
        return Comparison { equal: 1, ..Comparison::default() };
    }
    let area = round(&differing);
    Comparison {
        code,
        equal: 0,
        count: differing.len() as u32,
        x: area.x,
        y: area.y,
        width: area.width,
        height: area.height,
        largest: a.iter().zip(b).map(|(&p, &q)| u32::from(p.abs_diff(q))).max().unwrap_or(0),
        least: differing.iter().map(|&(x, y)| y * width + x).min().unwrap_or(0),
    }
}

fn refusal(width: u32, height: u32, a: &[u8], b: &[u8]) -> u32 {
    let sides = 1..=1_024;
    if !sides.contains(&width) || !sides.contains(&height) {
        return ILLEGAL_ARGUMENT;
    }
    let bytes = 4 * width as usize * height as usize;
    if a.len() != bytes || b.len() != bytes {
        return UNSUPPORTED_IMAGE_FORMAT;
    }
    ACCEPTED
}

/// R, G, B and A.
fn pixel(width: u32, surface: &[u8], x: u32, y: u32) -> &[u8] {
    let at = 4 * (y * width + x) as usize;
    &surface[at..at + 4]
}

/// The smallest rectangle that holds these pixels, of which there is one at least.
fn round(pixels: &[(u32, u32)]) -> Rectangle {
    let span = |side: fn(&(u32, u32)) -> u32| {
        let low = pixels.iter().map(side).min().unwrap_or(0);
        let high = pixels.iter().map(side).max().unwrap_or(0);
        (low, high - low + 1)
    };
    let (x, width) = span(|pixel| pixel.0);
    let (y, height) = span(|pixel| pixel.1);
    Rectangle { x, y, width, height }
}

/// Where a text is not that of a picture: in which of two, and its line, from 1 on.
#[derive(Clone, Copy, Debug, PartialEq, Eq)]
pub struct Damage {
    pub picture: usize,
    pub line: usize,
}

/// Two pictures of one size, as surfaces: the lowest row first.
pub struct Pictures {
    pub width: u32,
    pub height: u32,
    pub surfaces: [Vec<u8>; 2],
}

/// What the program `compare` prints for two pictures as text.
pub fn printed(texts: [&str; 2]) -> Result<String, Damage> {
    let pictures = match read(texts)? {
        Ok(pictures) => pictures,
        Err(code) => return Ok(format!("refused {code:04x}\n")),
    };
    let [a, b] = &pictures.surfaces;
    let answer = compare(pictures.width, pictures.height, a, b);
    let word = if answer.equal == 1 { "equal" } else { "differ" };
    let Comparison { count, x, y, width, height, largest, least, .. } = answer;
    Ok(format!("{word} {count} {x} {y} {width} {height} {largest} {least}\n"))
}

/// Reads two printed pictures, or tells the code of their refusal: sizes are judged on the first lines, before any row.
pub fn read(texts: [&str; 2]) -> Result<Result<Pictures, u32>, Damage> {
    let mut sizes = [(0, 0); 2];
    for (picture, text) in texts.iter().enumerate() {
        sizes[picture] = size(text).ok_or(Damage { picture, line: 1 })?;
    }
    let allowed = |(width, height): (u32, u32)| (1..=1_024).contains(&width) && (1..=1_024).contains(&height);
    if !sizes.into_iter().all(allowed) {
        return Ok(Err(ILLEGAL_ARGUMENT));
    }
    if sizes[0] != sizes[1] {
        return Ok(Err(UNSUPPORTED_IMAGE_FORMAT));
    }
    let (width, height) = sizes[0];
    // Both are read line by line: the first damaged line is told, of the first picture where both have one.
    let rows = texts.map(|text| rows(width, height, text));
    if let Some((line, picture)) = (0..2).filter_map(|i| Some((*rows[i].as_ref().err()?, i))).min() {
        return Err(Damage { picture, line });
    }
    Ok(Ok(Pictures { width, height, surfaces: rows.map(Result::unwrap_or_default) }))
}

/// Two numbers as they are printed, a space between them, and a newline.
fn size(text: &str) -> Option<(u32, u32)> {
    let (line, _) = text.split_once('\n')?;
    let (width, height) = line.split_once(' ')?;
    Some((number(width)?, number(height)?))
}

/// A number as it is printed, of nine digits at most.
fn number(text: &str) -> Option<u32> {
    let digits = text.len() < 10 && text.bytes().all(|b| b.is_ascii_digit());
    let plain = text == "0" || !text.starts_with('0');
    text.parse().ok().filter(|_| digits && plain)
}

/// The surface that the rows of a picture show, or the number of the first line that is damaged.
fn rows(width: u32, height: u32, text: &str) -> Result<Vec<u8>, usize> {
    let mut lines = text.split_inclusive('\n').skip(1);
    let mut surface = Vec::new();
    for line in 2..height as usize + 2 {
        let row = lines.next().and_then(|text| row(width, text)).ok_or(line)?;
        // The top row comes first.
        surface.splice(0..0, row);
    }
    match lines.next() {
        Some(_) => Err(height as usize + 2),
        None => Ok(surface),
    }
}

fn row(width: u32, text: &str) -> Option<Vec<u8>> {
    let words: Vec<&str> = text.strip_suffix('\n')?.split(' ').collect();
    let right = |word: &&str| word.len() == 8 && word.bytes().all(|b| matches!(b, b'0'..=b'9' | b'a'..=b'f'));
    if words.len() != width as usize || !words.iter().all(right) {
        return None;
    }
    Some(words.iter().flat_map(|word| u32::from_str_radix(word, 16).unwrap_or(0).to_be_bytes()).collect())
}
