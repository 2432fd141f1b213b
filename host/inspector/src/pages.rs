//! Which path has which answer. No path names a file: the page is part of the program, and the data are the model's.

use crate::facts;
use crate::json::Json;
use crate::model::{Inspected, Model, Shown};
use crate::request::{Request, Status};

const HTML: &str = "text/html; charset=utf-8";
const STYLE: &str = "text/css; charset=utf-8";
const SCRIPT: &str = "text/javascript; charset=utf-8";
const TEXT: &str = "text/plain; charset=utf-8";
const JSON: &str = "application/json";
const BYTES: &str = "application/octet-stream";

/// An answer.
#[derive(Clone, Debug, PartialEq, Eq)]
pub struct Page {
    /// How the request went.
    pub status: Status,
    /// The kind of its content.
    pub kind: &'static str,
    /// Its content.
    pub body: Vec<u8>,
}

impl Page {
    fn new(kind: &'static str, body: impl Into<Vec<u8>>) -> Page {
        Page { status: Status::Ok, kind, body: body.into() }
    }

    fn of_json(value: &Json) -> Page {
        Page::new(JSON, value.to_string())
    }

    /// What is said of a request that has no other answer.
    pub fn of_status(status: Status) -> Page {
        Page { status, kind: TEXT, body: format!("{}\n", status.line()).into_bytes() }
    }
}

/// The answer to a request:
///
/// | Path | Fields | Answer |
/// |---|---|---|
/// | `/`, `/app.js`, `/style.css` | | the page |
/// | `/scene.json` | scene | the file, its refusal, what is shown of it |
/// | `/picture` | scene, off | its pixels: R, G, B, A, premultiplied, the lowest row first; nothing if it is refused |
/// | `/edges.json` | scene, draw | a draw's edges |
/// | `/pixel.json` | scene, off, x, y | why a pixel has its colour |
/// | `/change.json` | | what is redrawn from the first scene to the second |
///
/// `scene` is 0 or 1, `off` the draws that are switched off, with commas between them.
pub fn answer(model: &Model, request: &Request) -> Result<Page, Status> {
    match request.path.as_str() {
        "/" => Ok(Page::new(HTML, include_str!("../static/index.html"))),
        "/app.js" => Ok(Page::new(SCRIPT, include_str!("../static/app.js"))),
        "/style.css" => Ok(Page::new(STYLE, include_str!("../static/style.css"))),
        "/scene.json" => Ok(Page::of_json(&facts::scene(model, inspected(model, request)?))),
        "/picture" => picture(model, request),
        "/edges.json" => edges(model, request),
        "/pixel.json" => pixel(model, request),
        "/change.json" => Ok(Page::of_json(&facts::change(model))),
        _ => Err(Status::NotFound),
    }
}

fn inspected<'a>(model: &'a Model, request: &Request) -> Result<&'a Inspected, Status> {
    model.scenes.get(request.number("scene")?).ok_or(Status::NotFound)
}

fn shown<'a>(model: &'a Model, request: &Request) -> Result<&'a Shown, Status> {
    inspected(model, request)?.shown.as_ref().ok_or(Status::NotFound)
}

/// The scene that is asked for, without the draws that are switched off.
fn switched(model: &Model, request: &Request) -> Result<Vec<u8>, Status> {
    Ok(shown(model, request)?.without(&request.numbers("off")?))
}

fn picture(model: &Model, request: &Request) -> Result<Page, Status> {
    let scene = switched(model, request)?;
    Ok(Page::new(BYTES, model.picture(&scene).unwrap_or_default()))
}

fn edges(model: &Model, request: &Request) -> Result<Page, Status> {
    let draws = &shown(model, request)?.scene.draws;
    let draw = draws.get(request.number("draw")?).ok_or(Status::NotFound)?;
    Ok(Page::of_json(&facts::edges(draw)))
}

fn pixel(model: &Model, request: &Request) -> Result<Page, Status> {
    let scene = switched(model, request)?;
    let question = model.question(&scene, request.number("x")?, request.number("y")?);
    Ok(Page::of_json(&facts::pixel(&question, &inspected(model, request)?.name)))
}
