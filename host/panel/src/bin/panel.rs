//! Writes the panel's scene files and its mask.

use std::path::Path;

const HELP: &str = "\
usage: panel FOLDER

Writes the scene files of the demonstration panel, and the mask of one pair, into a folder, and says what each is. A file that
cannot be written is told on standard error and ends with 2.
";

fn main() {
    let arguments = tool::arguments(HELP);
    let folder = match &arguments[..] {
        [folder] => folder,
        _ => tool::usage(HELP),
    };
    let write = |name: &str, bytes: &[u8]| {
        let path = Path::new(folder).join(name).display().to_string();
        tool::write(&path, bytes);
        path
    };
    let mut text = String::new();
    for (name, scene) in panel::files() {
        let path = write(name, &scene.bytes());
        text += &format!("{path}: {} by {}, {} draws\n", scene.width, scene.height, scene.draws.len());
    }
    let (name, mask) = panel::mask_file();
    text += &format!("{}: {} bytes\n", write(name, &mask), mask.len());
    tool::write("-", text.as_bytes());
}
