//! The replay program by the reference.

const HELP: &str = "\
usage: reference-replay SCENE ..

Shows scene files one after the other by the reference, and prints the code of the whole, seven numbers for each scene, the
first code other than 0, and the picture that is shown at the end.

A file named - is standard input. It ends with 1 if the whole or a scene is refused; a file that cannot be read is told on
standard error and ends with 2.
";

fn main() {
    let names = tool::arguments(HELP);
    if names.is_empty() {
        tool::usage(HELP);
    }
    let scenes: Vec<Vec<u8>> = names.iter().map(|name| tool::read(name)).collect();
    let text = reference::print::replaying(&scenes);
    tool::write("-", text.as_bytes());
    if !text.contains("\ncontext 0000\n") {
        std::process::exit(tool::REFUSED);
    }
}
