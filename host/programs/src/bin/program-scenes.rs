//! Writes the scene files that the proved programs are run on.

use std::path::Path;

const HELP: &str = "\
usage: program-scenes FOLDER

Writes the scene files that the proved programs are run on into a folder, which is the repository's folder crates, and says
where. A file that cannot be written is told on standard error and ends with 2.
";

fn main() {
    let arguments = tool::arguments(HELP);
    let folder = match &arguments[..] {
        [folder] => folder,
        _ => tool::usage(HELP),
    };
    for (place, bytes) in programs::files() {
        let path = Path::new(folder).join(place).display().to_string();
        tool::write(&path, &bytes);
        tool::write("-", format!("{path}\n").as_bytes());
    }
}
