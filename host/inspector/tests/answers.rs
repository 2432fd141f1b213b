//! What the pages answer: pictures, lines, areas and refusals, held to the library.

mod support;

use inspector::model::Model;
use inspector::pages::{self, Page};
use inspector::request::{Request, Status};
use library::explain::{self, Line};
use library::{Mask, Pixel, Surface};
use support::{edge_cases, file, model, squares, Value};

fn page(model: &Model, target: &str) -> Result<Page, Status> {
    pages::answer(model, &Request::to(target).expect("a target"))
}

fn json(model: &Model, target: &str) -> Value {
    let page = page(model, target).unwrap_or_else(|status| panic!("{target}: {status:?}"));
    assert_eq!(page.kind, "application/json");
    Value::read(std::str::from_utf8(&page.body).expect("a text"))
}

/// The library's drawing of a scene file.
fn drawn(scene: &[u8], mask: Mask) -> Surface {
    let mut surface = Surface::for_scene(scene).expect("a size");
    surface.set_mask((mask.lent != 0).then(|| mask.bytes.to_vec())).expect("a mask of its size");
    surface.draw(scene).expect("an accepted scene");
    surface
}

fn numbers(bytes: &[u8]) -> Vec<i64> {
    bytes.iter().map(|&byte| byte.into()).collect()
}

fn channels(pixel: Pixel) -> Vec<i64> {
    numbers(&<[u8; 4]>::from(pixel))
}

/// Whether a line is told as the library has it.
fn assert_line(told: &Value, line: &Line) {
    let kind = ["none", "outside", "uncovered", "covered"][line.kind as usize];
    assert_eq!(told.at("kind").text(), kind);
    assert_eq!(told.at("coverage").number(), line.coverage.into());
    let mask = if line.masked == 1 { Value::Number(line.mask.into()) } else { Value::Null };
    assert_eq!(*told.at("mask"), mask);
    for (name, pixel) in [("paint", line.paint), ("before", line.before), ("after", line.after)] {
        assert_eq!(told.at(name).numbers(), channels(pixel), "{name}");
    }
}

/// A pixel's story is the library's, line by line, and ends with the picture's pixel.
fn assert_pixel(model: &Model, scene: &[u8], mask: Mask, x: u32, y: u32) {
    let told = json(model, &format!("/pixel.json?scene=0&x={x}&y={y}"));
    let lines = explain::lines(scene, mask, x, y).expect("lines");
    assert_eq!(told.at("lines").list().len(), lines.len());
    for (told, line) in told.at("lines").list().iter().zip(&lines) {
        assert_line(told, line);
    }
    let stored = drawn(scene, mask).pixel(x, y).expect("a pixel");
    assert_eq!(told.at("last").numbers(), numbers(&stored), "({x}, {y})");
    assert!(told.at("story").text().contains(&format!("pixel ({x}, {y})")));
}

#[test]
fn every_pixel_has_the_lines_of_the_library() {
    let scene = squares().bytes();
    let model = model(&scene);
    for (x, y) in (0..6).flat_map(|y| (0..8).map(move |x| (x, y))) {
        assert_pixel(&model, &scene, Mask::NONE, x, y);
    }
}

#[test]
fn pixels_under_a_mask() {
    let (scene, mask) = (file("scenes/panel-soft.scene"), file("scenes/panel-soft.mask"));
    let model = Model::new(vec![("soft".to_string(), scene.clone())], Some(mask.clone()));
    for (x, y) in [(470, 500), (512, 300), (400, 520), (0, 0), (1_023, 599)] {
        assert_pixel(&model, &scene, Mask::of(&mask), x, y);
    }
}

#[test]
fn a_pixel_outside_is_refused_in_words() {
    let told = json(&model(&squares().bytes()), "/pixel.json?scene=0&x=8&y=0");
    assert_eq!(told.at("refused").at("code").text(), "1001");
    assert_eq!(told.at("refused").at("value").text(), "(8, 0)");
}

/// The picture of the scene without the draws that are switched off, for every choice of them.
#[test]
fn draws_that_are_switched_off_are_not_drawn() {
    let whole = squares();
    let model = model(&whole.bytes());
    for choice in 0..8_usize {
        let off: Vec<String> = (0..3).filter(|i| choice >> i & 1 == 1).map(|i: usize| i.to_string()).collect();
        let mut without = whole.clone();
        without.draws = (0..3).filter(|i| choice >> i & 1 == 0).map(|i| whole.draws[i].clone()).collect();
        let query = format!("scene=0&off={}", off.join(","));
        let picture = page(&model, &format!("/picture?{query}")).expect("a picture").body;
        let expected = drawn(&without.bytes(), Mask::NONE);
        assert_eq!(picture, expected.pixels(), "{query}");
        let told = json(&model, &format!("/pixel.json?{query}&x=2&y=2"));
        assert_eq!(told.at("last").numbers(), numbers(&expected.pixel(2, 2).expect("a pixel")), "{query}");
    }
}

#[test]
fn draws_have_their_boxes_and_edges() {
    let model = model(&squares().bytes());
    let told = json(&model, "/scene.json?scene=0");
    let shown = told.at("shown");
    assert_eq!((shown.at("width").number(), shown.at("height").number()), (8, 6));
    let boxes: Vec<Vec<i64>> = shown.at("draws").list().iter().map(|draw| draw.at("box").numbers()).collect();
    assert_eq!(boxes, [[0, 0, 4, 4], [2, 2, 4, 4], [1, 1, 5, 5]]);
    assert_eq!(shown.at("draws").list()[1].at("swatches").list()[0].numbers(), [0, 128, 0, 128]);
    assert_eq!(shown.at("draws").list()[2].at("scissors").list()[0].numbers(), [4, 0, 1, 6]);
    let edges = json(&model, "/edges.json?scene=0&draw=1").numbers();
    assert_eq!(edges.len(), 16);
    assert!(edges.iter().all(|&end| end == 512 || end == 1_280));
}

/// The numbers of the library's plan.
fn planned_numbers(old: &[u8], new: &[u8]) -> Vec<i64> {
    let mut numbers = [0; 16];
    let planning = library::plan(old, new, Mask::NONE, &mut numbers);
    assert_eq!(planning.code, 0);
    numbers[..4 * planning.count as usize].iter().map(|&number| number.into()).collect()
}

/// The area, and the rectangles of a planned redraw.
#[test]
fn what_is_redrawn_is_the_library_s() {
    let (old, new) = (file("scenes/panel.scene"), file("scenes/panel-next.scene"));
    let mut surface = drawn(&old, Mask::NONE);
    let area = surface.show(&new).expect("an accepted scene");
    let planned = planned_numbers(&old, &new);
    assert!(!planned.is_empty());
    let model = Model::new(vec![("old".to_string(), old), ("new".to_string(), new)], None);
    let told = json(&model, "/change.json");
    assert_eq!(told.at("area").numbers(), [area.x, area.y, area.width, area.height].map(i64::from));
    assert!(told.at("differing").number() > 0);
    assert_eq!(told.at("planned").list().iter().flat_map(Value::numbers).collect::<Vec<i64>>(), planned);
    assert_eq!(page(&model, "/picture?scene=1").expect("a picture").body, surface.pixels());
}

#[test]
fn two_scenes_of_other_sizes_have_no_redraw() {
    let files = ["scenes/panel.scene", "scenes/panel-small.scene"].map(|name| (name.to_string(), file(name)));
    let told = json(&Model::new(files.to_vec(), None), "/change.json");
    assert!(told.at("refused").text().starts_with("refused 1001 in the new scene"));
    assert_eq!(json(&model(&squares().bytes()), "/change.json"), Value::Null);
}

/// Every edge case is answered: code, draw and offset as its line has them, its rule in words, the byte at its place; and the
/// picture where one can be salvaged.
#[test]
fn refused_scenes_are_shown() {
    let (mut refused, mut salvaged) = (0, 0);
    for (line, scene) in edge_cases() {
        let words: Vec<&str> = line.split_whitespace().collect();
        let model = model(&scene);
        let told = json(&model, "/scene.json?scene=0");
        if words[1] == "0000" {
            assert_eq!(*told.at("refused"), Value::Null, "{line}");
            continue;
        }
        refused += 1;
        let fault = told.at("refused");
        assert_eq!(fault.at("code").text(), words[1], "{line}");
        assert_eq!(fault.at("offset").number().to_string(), words[4], "{line}");
        for words in ["words", "where", "field", "value", "rule"] {
            assert!(!fault.at(words).text().is_empty(), "{line}");
        }
        if words[1] != "b002" {
            assert_marked(fault.at("around"), &scene, fault.at("offset").number() as usize);
        }
        salvaged += usize::from(assert_salvaged(&model, &scene, told.at("shown")));
    }
    assert_eq!(refused, 163);
    assert_eq!(salvaged, 150);
}

/// Whether the bytes around a place are the file's, the place among them.
fn assert_marked(around: &Value, file: &[u8], offset: usize) {
    assert_eq!(around.at("marked").number() as usize, offset);
    let from = around.at("from").number() as usize;
    let bytes: Vec<u8> = around.at("bytes").numbers().iter().map(|&byte| byte as u8).collect();
    assert!((from..from + bytes.len()).contains(&offset));
    assert_eq!(bytes, file[from..from + bytes.len()]);
}

/// Whether a scene was salvaged; then its picture is the salvaged one's, if that is drawn without a mask, and else it has none.
fn assert_salvaged(model: &Model, scene: &[u8], shown: &Value) -> bool {
    let mut place = vec![0; scene.len()];
    let replaced = reference::salvage::salvage(scene, &mut place);
    let picture = page(model, "/picture?scene=0");
    match replaced {
        Err(_) => {
            assert_eq!(*shown, Value::Null);
            assert_eq!(picture, Err(Status::NotFound));
            false
        }
        Ok(replaced) => {
            let told: Vec<i64> = shown.at("replaced").list().iter().map(|draw| draw.at("draw").number()).collect();
            assert_eq!(told, replaced.iter().map(|draw| draw.draw.into()).collect::<Vec<i64>>());
            let accepted = explain::explain(&place, Mask::NONE, 0, 0).code == 0;
            let expected = if accepted { drawn(&place, Mask::NONE).pixels().to_vec() } else { Vec::new() };
            assert_eq!(picture.expect("an answer").body, expected);
            true
        }
    }
}

/// A mask of another size refuses the scene; nothing is drawn, and it is said why.
#[test]
fn a_mask_of_another_size() {
    let model = Model::new(vec![("a scene".to_string(), squares().bytes())], Some(vec![0; 3]));
    let told = json(&model, "/scene.json?scene=0");
    assert_eq!(told.at("refused").at("code").text(), "1004");
    assert_eq!(*told.at("refused").at("around"), Value::Null);
    assert_eq!(page(&model, "/picture?scene=0").expect("an answer").body, []);
    assert_eq!(json(&model, "/pixel.json?scene=0&x=0&y=0").at("refused").at("value").text(), "3 bytes");
}

/// Files of any bytes are answered on every page.
#[test]
fn any_bytes_are_answered() {
    let sound = squares().bytes();
    let mut files = vec![Vec::new(), vec![0xFF; 3], vec![0; 512], vec![0xFF; 2_560], sound[..sound.len() - 1].to_vec()];
    files.extend((0..sound.len()).step_by(41).map(|at| {
        let mut spoiled = sound.clone();
        spoiled[at] ^= 0x55;
        spoiled
    }));
    for file in files {
        let model = Model::new(vec![("a\"b".to_string(), file), ("new".to_string(), sound.clone())], None);
        let told = json(&model, "/scene.json?scene=0");
        assert_eq!(told.at("name").text(), "a\"b");
        json(&model, "/change.json");
        let pixel = page(&model, "/pixel.json?scene=0&x=1&y=1");
        assert_eq!(pixel.is_ok(), *told.at("shown") != Value::Null);
    }
}
