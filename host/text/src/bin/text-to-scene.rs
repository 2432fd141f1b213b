//! Makes a scene file from its text.

const HELP: &str = "\
usage: text-to-scene [--unjudged] TEXT SCENE

Makes a scene file from its text. A file named - is standard input or output. What is wrong with the text is told by line
and column, and so is what the rules refuse; the exit status is then 1, and nothing is written. It is 2 if a file cannot be
read or written. docs/TEXT.md describes the text.

  --unjudged    writes the file whether the rules accept it or not
";

fn main() {
    let arguments = tool::arguments(HELP);
    let words: Vec<&str> = arguments.iter().map(String::as_str).collect();
    let (source, target, made) = match words[..] {
        ["--unjudged", text, scene] => (text, scene, wayramesh_text::to_file(&tool::read(text))),
        [text, scene] if !text.starts_with("--") => (text, scene, wayramesh_text::to_scene(&tool::read(text))),
        _ => tool::usage(HELP),
    };
    match made {
        Ok(scene) => tool::write(target, &scene),
        Err(errors) => {
            let lines: Vec<String> = errors.iter().map(|error| format!("{source}:{error}")).collect();
            tool::refuse(&lines.join("\n"))
        }
    }
}
