//! The safe calls: a surface that goes from scene to scene, refusals as results, and the codes of the header.

use std::fs;
use std::path::Path;

use wayramesh::{compare, composite, draw, Area, Code, Context, Mask, Pixel, Refusal, Surface, SCRATCH_NUMBERS};
use wayramesh_scene::{file_offset, seal, Draw, Scene};

fn repository() -> std::path::PathBuf {
    Path::new(env!("CARGO_MANIFEST_DIR")).join("../..")
}

fn file(name: &str) -> Vec<u8> {
    fs::read(repository().join("scenes").join(name)).expect(name)
}

fn square(color: [f32; 4]) -> Vec<u8> {
    let mut scene = Scene::new(4, 4, [0, 0, 0, 255]);
    scene.draws.push(Draw { color, path: wayramesh_scene::Path::new().rectangle(0, 0, 2, 2), ..Draw::default() });
    scene.build().expect("a scene")
}

const RED: [f32; 4] = [1.0, 0.0, 0.0, 1.0];
const BLUE: [f32; 4] = [0.0, 0.0, 1.0, 1.0];

#[test]
fn goes_from_scene_to_scene() {
    let mut surface = Surface::new(4, 4).expect("a size");
    let whole = Area { x: 0, y: 0, width: 4, height: 4 };
    assert_eq!(surface.show(&square(RED)), Ok(whole));
    assert_eq!(surface.show(&square(BLUE)), Ok(Area { x: 0, y: 0, width: 3, height: 3 }));
    assert_eq!(surface.show(&square(BLUE)), Ok(Area::default()));
    assert!(surface.show(&square(BLUE)).expect("an area").is_empty());
    assert_eq!(surface.draw(&square(RED)), Ok(whole));
    assert_eq!((surface.pixel(1, 1), surface.pixel(2, 1)), (Some([255, 0, 0, 255]), Some([0, 0, 0, 255])));
    assert_eq!((surface.pixel(4, 0), surface.pixel(0, 4)), (None, None));
    assert_eq!(surface.rows_from_top().last().map(|row| row[..4].to_vec()), Some(vec![255, 0, 0, 255]));
    assert_eq!(surface.shown(), Some(&square(RED)[..]));
}

/// The panel's pair with its mask: shown one after the other, it is the second's drawing.
#[test]
fn under_a_mask() {
    let (old, new, mask) = (file("panel-soft.scene"), file("panel-soft-next.scene"), file("panel-soft.mask"));
    let mut surface = Surface::for_scene(&old).expect("a size");
    assert_eq!((surface.width(), surface.height()), (1_024, 600));
    let asks = Refusal { code: Code::IllegalArgument, draw: Some(33), in_new_scene: false };
    assert_eq!(surface.show(&old), Err(asks));
    assert!(surface.set_mask(Some(vec![0; 7])).is_err());
    surface.set_mask(Some(mask.clone())).expect("a mask");
    surface.show(&old).expect("a drawing");
    let area = surface.show(&new).expect("a redraw");
    assert!(!area.is_empty() && area.width < 1_024);
    let mut expected = vec![0; surface.pixels().len()];
    let answer = draw(&mut Context::default(), &new, Mask::of(&mask), &mut expected, &mut vec![0; SCRATCH_NUMBERS]);
    assert!(answer.result().is_ok() && surface.pixels() == expected);
    // Without it the next scene is drawn in full, and refused: the surface shows what it did.
    surface.set_mask(None).expect("no mask");
    assert_eq!(surface.shown(), None);
    assert_eq!(surface.show(&new), Err(asks));
    assert!(surface.pixels() == expected);
}

#[test]
fn refusals_in_words() {
    let mut surface = Surface::new(4, 4).expect("a size");
    surface.show(&square(RED)).expect("a drawing");
    let before = surface.pixels().to_vec();
    let words = |scene: &[u8], surface: &mut Surface| surface.show(scene).expect_err("a refusal").to_string();
    let mut spoiled = square(BLUE);
    spoiled[file_offset(0, 772)] = 18;
    assert_eq!(words(&spoiled, &mut surface), "refused b001 in draw 0 of the new scene: a block's check is wrong");
    seal(&mut spoiled);
    assert_eq!(words(&spoiled, &mut surface), "refused 1005 in draw 0 of the new scene: a segment is an arc");
    assert_eq!(words(&spoiled[..700], &mut surface), "refused b002 in the new scene: the file has a wrong length");
    let mut fresh = Surface::new(5, 5).expect("a size");
    assert_eq!(words(&spoiled, &mut fresh), "refused 1005 in draw 0: a segment is an arc");
    let other = Scene::new(5, 4, [0; 4]).build().expect("a scene");
    let sizes = "refused 1001 in the new scene: a rule is broken, or the sizes of two scenes differ";
    assert_eq!(words(&other, &mut surface), sizes);
    assert!(surface.pixels() == before && surface.shown() == Some(&square(RED)[..]));
    let wrong = Refusal { code: Code::UnsupportedImageFormat, draw: None, in_new_scene: false };
    assert_eq!(fresh.draw(&other), Err(wrong));
}

#[test]
fn sizes() {
    assert!([(0, 1), (1, 0), (1_025, 1), (1, 1_025), (u32::MAX, u32::MAX)]
        .iter()
        .all(|&(w, h)| Surface::new(w, h).is_err()));
    assert!(Surface::new(1_024, 1_024).is_ok() && Surface::new(1, 1).is_ok());
    assert!(Surface::for_scene(&[]).is_err() && Surface::for_scene(&[0; 512]).is_err());
    assert_eq!(wayramesh::size(&[2, 0, 1, 1, 9]), Some((2, 257)));
}

/// Every code of the header's table, by its number.
#[test]
fn the_codes_are_the_headers() {
    let header = fs::read_to_string(repository().join("include/wayramesh.h")).expect("the header");
    for (code, name) in [
        (Code::Accepted, "ACCEPTED 0u"),
        (Code::BadLength, "BAD_LENGTH 0xB002u"),
        (Code::BadChecksum, "BAD_CHECKSUM 0xB001u"),
        (Code::IllegalArgument, "ILLEGAL_ARGUMENT 0x1001u"),
        (Code::UnsupportedPathFormat, "UNSUPPORTED_PATH_FORMAT 0x1005u"),
        (Code::UnsupportedImageFormat, "UNSUPPORTED_IMAGE_FORMAT 0x1004u"),
        (Code::OutOfMemory, "OUT_OF_MEMORY 0x1002u"),
    ] {
        assert!(header.contains(&format!("#define WAYRAMESH_{name}\n")), "{name}");
        assert_eq!(Code::from_number(code.number()), Some(code));
        assert!(name.ends_with(&format!(
            "{}u",
            if code.number() == 0 { "0".into() } else { format!("0x{:04X}", code.number()) }
        )));
    }
    assert_eq!(Code::from_number(0x1003), None);
}

/// Pictures compared, and a pixel blended: an answer, or a code.
#[test]
fn other_calls_as_results() {
    let (black, white) = ([0; 16], [255; 16]);
    assert_eq!(compare(2, 2, &black, &white).result().map(|answer| (answer.count, answer.largest)), Ok((4, 255)));
    assert_eq!(compare(0, 2, &black, &white).result(), Err(Code::IllegalArgument));
    assert_eq!(compare(2, 2, &black, &white[1..]).result(), Err(Code::UnsupportedImageFormat));
    let [half_red, blue, mixed] = [[128, 0, 0, 128], [0, 0, 255, 255], [128, 0, 127, 255]].map(Pixel::from);
    assert_eq!(composite(0x2001, 16, 255, half_red, blue).result(), Ok(mixed));
    let code = composite(0x2001, 17, 255, half_red, blue).result().unwrap_err();
    assert_eq!(code.to_string(), "a rule is broken, or the sizes of two scenes differ");
}

/// Threads that draw at once, each on a surface of its own.
#[test]
fn in_threads() {
    let scene = file("panel-small.scene");
    let mut alone = Surface::for_scene(&scene).expect("a size");
    alone.show(&scene).expect("a drawing");
    let draw = |scene: &[u8]| {
        let mut surface = Surface::for_scene(scene).expect("a size");
        surface.show(scene).map(|_| surface.pixels().to_vec())
    };
    std::thread::scope(|scope| {
        let threads: Vec<_> = (0..4).map(|_| scope.spawn(|| draw(&scene))).collect();
        for thread in threads {
            assert!(thread.join().expect("a thread").expect("a drawing") == alone.pixels());
        }
    });
}
