//! Writes a scene file as text.

const HELP: &str = "\
usage: scene-to-text SCENE [TEXT]

Writes a scene file as text, to standard output if no second file is named. A file named - is standard input or output.
A file that the rules refuse is written as far as it can be read, with the fault in words at its place; the exit status is
then 1. It is 2 if a file cannot be read or written. docs/TEXT.md describes the text.
";

fn main() {
    let arguments = tool::arguments(HELP);
    let (source, target) = match &arguments[..] {
        [source] => (source, "-"),
        [source, target] => (source, &target[..]),
        _ => tool::usage(HELP),
    };
    let written = wayramesh_text::to_text(&tool::read(source));
    tool::write(target, written.text.as_bytes());
    if let Some(fault) = written.fault {
        tool::refuse(&format!("{source}: {fault}"));
    }
}
