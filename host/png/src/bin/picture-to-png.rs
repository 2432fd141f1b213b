//! Turns a picture into a PNG image.

use wayramesh_png::{Picture, Problem};

const HELP: &str = "\
usage: picture-to-png [PICTURE] IMAGE

Turns a picture into a PNG image. The picture is what the drawing and redrawing programs print, or a PAM image of 8 bits with
three or four channels; without its name it is read from standard input. A file named - is standard input or output.

A text that says that a scene was refused ends with 1. What is no picture, or a file that cannot be read or written, is told on
standard error and ends with 2; then no image is written.
";

fn main() {
    let arguments = tool::arguments(HELP);
    let (source, target) = match &arguments[..] {
        [target] => ("-", target),
        [source, target] => (&source[..], target),
        _ => tool::usage(HELP),
    };
    match Picture::read(&tool::read(source)) {
        Ok(picture) => tool::write(target, &picture.png()),
        Err(Problem::Refused(line)) => tool::refuse(&format!("there is no picture: the program printed '{line}'")),
        Err(Problem::Unreadable(reason)) => tool::fail(&reason),
    }
}
