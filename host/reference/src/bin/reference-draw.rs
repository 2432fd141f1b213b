//! The drawing program by the reference.

const HELP: &str = "\
usage: reference-draw SCENE [MASK]

Draws a scene file by the reference and prints its picture: width and height, then the rows from the top one down, 8 hex digits
for each pixel. A mask, a byte for each pixel, may be lent, as the proved program lends none.

A file named - is standard input. A scene that is refused prints one line, as `refused b002 64`, and ends with 1; a file that
cannot be read is told on standard error and ends with 2.
";

fn main() {
    let arguments = tool::arguments(HELP);
    let (scene, mask) = match &arguments[..] {
        [scene] => (scene, None),
        [scene, mask] => (scene, Some(mask)),
        _ => tool::usage(HELP),
    };
    let (scene, mask) = (tool::read(scene), mask.map(|mask| tool::read(mask)));
    let text = reference::print::drawing(&scene, mask.as_deref());
    tool::write("-", text.as_bytes());
    if text.starts_with("refused") {
        std::process::exit(tool::REFUSED);
    }
}
