//! Says why a pixel of a scene has its colour: `why --help`.

use why::Question;

const HELP: &str = "\
usage: why [--color | --no-color] SCENE X Y [MASK]

Says why the pixel (X, Y) of a scene file has its colour: what each draw does there, in order, from the background on.
Row 0 is the lowest. MASK is a file with a byte for each pixel, row by row, for draws that ask for one. A file named - is
standard input. Of a scene that the rules refuse it says where the file breaks which rule.

  --color      with swatches, for a terminal with 24-bit colours; without the option, on a terminal that has a COLORTERM
  --no-color   without

It ends with 0 where the pixel is explained, with 1 where the scene, the mask or the pixel is refused, and with 2 where a
file cannot be read or an argument is wrong.
";

/// The arguments, taken apart.
struct Arguments {
    swatches: Option<bool>,
    words: Vec<String>,
}

fn main() {
    let Arguments { swatches, words } = arguments();
    let (scene, x, y, mask) = match &words[..] {
        [scene, x, y] => (scene, x, y, None),
        [scene, x, y, mask] => (scene, x, y, Some(mask)),
        _ => tool::usage(HELP),
    };
    let (x, y) = (number(x), number(y));
    let (bytes, mask) = (tool::read(scene), mask.map(|mask| tool::read(mask)));
    let question = Question { scene: &bytes, mask: mask.as_deref(), x, y };
    let (text, refused) = question.answer(scene, swatches.unwrap_or_else(terminal::shows_colors));
    tool::write("-", text.as_bytes());
    if refused {
        std::process::exit(tool::REFUSED);
    }
}

fn arguments() -> Arguments {
    let mut arguments = Arguments { swatches: None, words: Vec::new() };
    for word in tool::arguments(HELP) {
        match word.as_str() {
            "--color" => arguments.swatches = Some(true),
            "--no-color" => arguments.swatches = Some(false),
            option if option.starts_with("--") => tool::fail(&format!("{option} is no option")),
            _ => arguments.words.push(word),
        }
    }
    arguments
}

/// A whole number; one too long for 64 bits is outside every picture, as the largest is.
fn number(text: &str) -> i64 {
    let digits = text.strip_prefix('-').unwrap_or(text);
    if digits.is_empty() || !digits.bytes().all(|byte| byte.is_ascii_digit()) {
        tool::fail(&format!("{text} is not a number"));
    }
    text.parse().unwrap_or(if text.starts_with('-') { i64::MIN } else { i64::MAX })
}

mod terminal {
    use std::env;

    extern "C" {
        fn isatty(descriptor: i32) -> i32;
    }

    /// Whether standard output is a terminal that says it has 24-bit colours.
    pub fn shows_colors() -> bool {
        // SAFETY: isatty of the C library takes any number.
        let is_terminal = unsafe { isatty(1) } == 1;
        is_terminal && env::var_os("COLORTERM").is_some()
    }
}
