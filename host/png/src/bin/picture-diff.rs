//! Shows where two printed pictures differ.

use reference::compare;
use wayramesh_png::difference;

const HELP: &str = "\
usage: picture-diff PICTURE PICTURE IMAGE

Prints what the program compare prints of two printed pictures, and writes a PNG image of both, their difference, and the
rectangle round the differing pixels. A file named - is standard input or output; with the image there, nothing is printed.

Pictures of different sizes, or of none, print `refused` with the code and end with 1. What is no picture, or a file that cannot
be read or written, is told on standard error and ends with 2; then no image is written.
";

fn main() {
    let arguments = tool::arguments(HELP);
    let (first, second, target) = match &arguments[..] {
        [first, second, target] => (first, second, target),
        _ => tool::usage(HELP),
    };
    let names = [first, second];
    let texts = names.map(|name| tool::read_text(name));
    let texts = [&texts[0][..], &texts[1][..]];
    let told =
        |damage: compare::Damage| -> ! { tool::fail(&format!("{}:{}: damaged", names[damage.picture], damage.line)) };
    let printed = compare::printed(texts).unwrap_or_else(|damage| told(damage));
    if target != "-" {
        tool::write("-", printed.as_bytes());
    }
    let pictures = compare::read(texts)
        .unwrap_or_else(|damage| told(damage))
        .unwrap_or_else(|_refused| std::process::exit(tool::REFUSED));
    let [a, b] = &pictures.surfaces;
    let answer = compare::compare(pictures.width, pictures.height, a, b);
    tool::write(target, &difference::image(&pictures, &answer).png());
}
