//! Shows a scene on a page of the local machine: `inspect --help`.

use std::path::Path;
use std::process::Command;

use inspector::model::Model;
use inspector::server::Server;

const HELP: &str = "\
usage: inspect SCENE [NEW] [--mask FILE] [--port N] [--open]

Shows a scene file on a page of this machine, and prints the page's address: the picture, zoomed to its pixels; a click says why
a pixel has its colour; the draws, to switch on and off, with their boxes and edges. With NEW also what a redraw from SCENE to it
redraws. Of a scene that the rules refuse it shows where the file breaks which rule, and what can be salvaged of it.

  --mask FILE   lends a mask, a byte for each pixel, row by row from the lowest
  --port N      the port of 127.0.0.1; without it any free one
  --open        opens the page with xdg-open

Only this machine can reach the page. It is there until the program is ended, with Ctrl-C. A file that cannot be read, a wrong
argument or a port that is taken ends it with 2.
";

/// The arguments, taken apart.
#[derive(Default)]
struct Arguments {
    scenes: Vec<String>,
    mask: Option<String>,
    port: u16,
    open: bool,
}

fn main() {
    let arguments = match parse(&tool::arguments(HELP)) {
        Some(arguments) if (1..=2).contains(&arguments.scenes.len()) => arguments,
        _ => tool::usage(HELP),
    };
    let files = arguments.scenes.iter().map(|path| (file_name(path), tool::read(path))).collect();
    let model = Model::new(files, arguments.mask.as_deref().map(tool::read));
    let port = arguments.port;
    let failed = |error| -> ! { tool::fail(&format!("port {port} of 127.0.0.1: {error}")) };
    let server = Server::bind(model, port).unwrap_or_else(|error| failed(error));
    let address = server.address().unwrap_or_else(|error| failed(error));
    let page = format!("http://{address}/");
    tool::write("-", format!("{page}\n").as_bytes());
    if arguments.open {
        open(&page);
    }
    server.run();
}

fn parse(words: &[String]) -> Option<Arguments> {
    let mut arguments = Arguments::default();
    let mut words = words.iter();
    while let Some(word) = words.next() {
        match word.as_str() {
            "--mask" => arguments.mask = Some(words.next()?.clone()),
            "--port" => arguments.port = words.next()?.parse().ok()?,
            "--open" => arguments.open = true,
            option if option.starts_with("--") => return None,
            _ => arguments.scenes.push(word.clone()),
        }
    }
    Some(arguments)
}

/// The last part of a path.
fn file_name(path: &str) -> String {
    Path::new(path).file_name().map_or_else(|| path.to_string(), |name| name.to_string_lossy().into_owned())
}

/// Opens the page; the address is printed whether this works or not.
fn open(page: &str) {
    if let Err(error) = Command::new("xdg-open").arg(page).spawn() {
        eprintln!("xdg-open: {error}");
    }
}
