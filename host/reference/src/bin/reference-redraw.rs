//! The redraw program by the reference.

const HELP: &str = "\
usage: reference-redraw OLD NEW [MASK]

Draws the old scene file by the reference, redraws it to the new one, and prints the area, as x, y, width and height, and the
picture. A mask, a byte for each pixel, may be lent for both, as the proved program lends none.

A file named - is standard input. A scene that is refused prints one line, as `refused b002 64 1`, and ends with 1; a file that
cannot be read is told on standard error and ends with 2.
";

fn main() {
    let arguments = tool::arguments(HELP);
    let (old, new, mask) = match &arguments[..] {
        [old, new] => (old, new, None),
        [old, new, mask] => (old, new, Some(mask)),
        _ => tool::usage(HELP),
    };
    let (old, new, mask) = (tool::read(old), tool::read(new), mask.map(|mask| tool::read(mask)));
    let text = reference::print::redrawing(&old, &new, mask.as_deref());
    tool::write("-", text.as_bytes());
    if text.starts_with("refused") {
        std::process::exit(tool::REFUSED);
    }
}
