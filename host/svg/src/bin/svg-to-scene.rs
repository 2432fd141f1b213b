//! Makes a scene file from an SVG document.

use wayramesh_svg::{convert, Options};

const HELP: &str = "\
usage: svg-to-scene [--skip] [--size WIDTHxHEIGHT] [--background #RRGGBBAA] SVG SCENE

Makes a scene file from the part of SVG that the format can hold. A file named - is standard input or output. What cannot
be held is told by line, column, element and name; the exit status is then 1, and nothing is written. It is 2 if a file
cannot be read or written. docs/SVG.md says what is held.

  --skip          writes the scene without what cannot be held, and tells it all the same
  --size          the surface in pixels, in place of the document's own size
  --background    what the surface is set to first; without it transparent black
";

struct Arguments<'a> {
    skip: bool,
    options: Options,
    files: Vec<&'a str>,
}

fn main() {
    let words = tool::arguments(HELP);
    match arguments(&words) {
        Some(Arguments { skip, options, files }) if files.len() == 2 => make(files[0], files[1], skip, &options),
        _ => tool::usage(HELP),
    }
}

fn arguments(words: &[String]) -> Option<Arguments<'_>> {
    let mut arguments = Arguments { skip: false, options: Options::default(), files: Vec::new() };
    let mut words = words.iter().map(String::as_str);
    while let Some(word) = words.next() {
        match word {
            "--skip" => arguments.skip = true,
            "--size" => arguments.options.size = Some(size(words.next()?)?),
            "--background" => arguments.options.background = background(words.next()?)?,
            _ if word.starts_with("--") => return None,
            file => arguments.files.push(file),
        }
    }
    Some(arguments)
}

fn size(word: &str) -> Option<(u16, u16)> {
    let (width, height) = word.split_once('x')?;
    Some((width.parse().ok()?, height.parse().ok()?))
}

fn background(word: &str) -> Option<[u8; 4]> {
    let digits = word
        .strip_prefix('#')
        .filter(|digits| digits.len() == 8 && digits.bytes().all(|byte| byte.is_ascii_hexdigit()))?;
    u32::from_str_radix(digits, 16).ok().map(u32::to_be_bytes)
}

fn make(source: &str, target: &str, skip: bool, options: &Options) {
    let converted =
        convert(&tool::read(source), options).unwrap_or_else(|problem| tool::refuse(&format!("{source}:{problem}")));
    converted.problems.iter().for_each(|problem| eprintln!("{source}:{problem}"));
    if !converted.problems.is_empty() && !skip {
        std::process::exit(tool::REFUSED);
    }
    tool::write(target, &converted.scene.bytes());
}
