//! The program `rearranged` on scenes made by hand: each thing that it says, and how it ends.

use std::path::PathBuf;
use std::process::{Command, Output};
use std::{env, fs, process};

use scene::{Draw, Path, Scene, Scissor};

/// A square of this colour whose box is the pixels from (x, y) to (x + side - 1, y + side - 1).
fn square(x: i16, y: i16, side: i16, color: [f32; 4]) -> Draw {
    let matrix = [0.5, 0.0, 0.0, 0.5, 0.0, 0.0];
    // Half a pixel short of the next one: a path that reaches it has it in its box.
    let path = Path::new().rectangle(2 * x, 2 * y, 2 * (x + side) - 1, 2 * (y + side) - 1);
    Draw { color, matrix, path, ..Draw::default() }
}

const RED: [f32; 4] = [1.0, 0.0, 0.0, 1.0];
const GREEN: [f32; 4] = [0.0, 1.0, 0.0, 1.0];
const BLUE: [f32; 4] = [0.0, 0.0, 1.0, 1.0];

/// Red at the left, green over its upper right corner, blue far from both.
fn scene() -> Scene {
    let mut scene = Scene::new(16, 8, [10, 20, 30, 255]);
    scene.draws = vec![square(0, 0, 4, RED), square(3, 3, 4, GREEN), square(8, 0, 4, BLUE)];
    scene
}

/// The scene with these of its draws, in this order.
fn with(draws: &[usize]) -> Scene {
    let mut other = scene();
    other.draws = draws.iter().map(|&i| scene().draws[i].clone()).collect();
    other
}

fn saved(name: &str, bytes: &[u8]) -> PathBuf {
    let path = env::temp_dir().join(format!("wayramesh-order-{}-{name}", process::id()));
    fs::write(&path, bytes).expect("a file in the folder for temporary files");
    path
}

/// Runs the program on two files.
fn run(name: &str, first: &[u8], second: &[u8]) -> Output {
    let paths = [saved(&format!("{name}-1"), first), saved(&format!("{name}-2"), second)];
    let output = Command::new(env!("CARGO_BIN_EXE_rearranged")).args(&paths).output().expect("the program");
    paths.iter().for_each(|path| fs::remove_file(path).expect("the file that was saved"));
    output
}

/// What it prints for two accepted scenes, and how it ends.
fn says(name: &str, first: &Scene, second: &Scene) -> (String, i32) {
    let output = run(name, &first.bytes(), &second.bytes());
    assert!(output.stderr.is_empty(), "{name}");
    (String::from_utf8(output.stdout).expect("text"), output.status.code().expect("an exit status"))
}

const SAME: &str = "rearranged: both scenes are drawn to the same bytes, under one mask or none\n";

#[test]
fn far_apart_draws_may_change_places() {
    let expected = format!("{SAME}draw 0 went to 1\ndraw 1 went to 2\ndraw 2 went to 0\n");
    assert_eq!(says("apart", &scene(), &with(&[2, 0, 1])), (expected, 0));
    let expected = format!("{SAME}draw 1 went to 2\ndraw 2 went to 1\n");
    assert_eq!(says("neighbours", &scene(), &with(&[0, 2, 1])), (expected, 0));
    assert_eq!(says("same", &scene(), &scene()), (format!("{SAME}no draw moved\n"), 0));
}

#[test]
fn draws_that_share_a_pixel_may_not() {
    let expected = "order changed: draws 0 and 1, now 1 and 0, both have the pixel 3, 3 in their boxes\n";
    assert_eq!(says("neighbours that meet", &scene(), &with(&[1, 0, 2])), (expected.to_string(), 1));
    let expected = "order changed: draws 0 and 1, now 2 and 0, both have the pixel 3, 3 in their boxes\n";
    assert_eq!(says("with one between", &scene(), &with(&[1, 2, 0])), (expected.to_string(), 1));
}

/// Scissors and paint do not count: boxes meet where nothing is drawn, or where the same is drawn.
#[test]
fn boxes_know_nothing_of_scissors_and_paint() {
    let turned = "order changed: draws 0 and 1, now 1 and 0, both have the pixel 3, 3 in their boxes\n";
    let mut first = with(&[0, 1]);
    first.draws[1].scissoring = true;
    first.draws[1].scissors = vec![Scissor { x: 5, y: 5, width: 1, height: 1 }];
    let mut second = first.clone();
    second.draws.swap(0, 1);
    assert_eq!(says("scissors", &first, &second), (turned.to_string(), 1));
    let mut first = with(&[0, 1]);
    first.draws[1].color = [0.0; 4];
    let mut second = first.clone();
    second.draws.swap(0, 1);
    assert_eq!(says("no colour", &first, &second), (turned.to_string(), 1));
}

/// A box ends where a path does; one that reaches a pixel's border has that pixel. A draw without edges has no box.
#[test]
fn boxes_at_their_borders() {
    let beside = |x| {
        let mut scene = Scene::new(16, 8, [0; 4]);
        scene.draws = vec![square(0, 0, 4, RED), square(x, 0, 4, GREEN)];
        scene
    };
    let turned = |mut scene: Scene| {
        scene.draws.swap(0, 1);
        scene
    };
    let moved = format!("{SAME}draw 0 went to 1\ndraw 1 went to 0\n");
    assert_eq!(says("beside", &beside(4), &turned(beside(4))), (moved.clone(), 0));
    let meet = "order changed: draws 0 and 1, now 1 and 0, both have the pixel 3, 0 in their boxes\n";
    assert_eq!(says("one less", &beside(3), &turned(beside(3))), (meet.to_string(), 1));
    let mut touching = beside(4);
    touching.draws[0].path = Path::new().rectangle(0, 0, 8, 8);
    let meet = "order changed: draws 0 and 1, now 1 and 0, both have the pixel 4, 0 in their boxes\n";
    assert_eq!(says("touching", &touching, &turned(touching.clone())), (meet.to_string(), 1));
    let mut bare = beside(0);
    bare.draws[1].path = Path::new().move_to(3, 3).line_to(3, 3);
    assert_eq!(says("no edges", &bare, &turned(bare.clone())), (moved.clone(), 0));
    let mut outside = beside(0);
    outside.draws[1].matrix[4] = 16.0;
    assert_eq!(says("off the surface", &outside, &turned(outside.clone())), (moved, 0));
}

/// The box of a curve goes over its pieces, not over its control points.
#[test]
fn boxes_of_curves() {
    let mut first = Scene::new(16, 16, [0; 4]);
    let path = Path::new().move_to(0, 0).quad_to((4, 16), (8, 0)).close();
    first.draws = vec![Draw { color: RED, path, ..Draw::default() }, square(2, 9, 3, GREEN)];
    let mut second = first.clone();
    second.draws.swap(0, 1);
    let moved = format!("{SAME}draw 0 went to 1\ndraw 1 went to 0\n");
    assert_eq!(says("curve", &first, &second), (moved, 0));
    for scene in [&mut first, &mut second] {
        scene
            .draws
            .iter_mut()
            .filter(|draw| draw.color == GREEN)
            .for_each(|draw| draw.path = square(2, 8, 3, GREEN).path);
    }
    let meet = "order changed: draws 0 and 1, now 1 and 0, both have the pixel 2, 8 in their boxes\n";
    assert_eq!(says("curve's top", &first, &second), (meet.to_string(), 1));
}

/// Equal draws are matched in order, and so never turned round.
#[test]
fn equal_draws() {
    let expected = format!("{SAME}draw 1 went to 2\ndraw 2 went to 1\n");
    assert_eq!(says("twice", &with(&[0, 0, 2]), &with(&[0, 2, 0])), (expected, 0));
    let turned = |a, b, p, q| {
        let shared = "both have the pixel 3, 3 in their boxes";
        (format!("order changed: draws {a} and {b}, now {p} and {q}, {shared}\n"), 1)
    };
    assert_eq!(says("before both", &with(&[0, 0, 1]), &with(&[1, 0, 0])), turned(0, 2, 1, 0));
    assert_eq!(says("from between", &with(&[2, 0, 1, 0]), &with(&[1, 2, 0, 0])), turned(1, 2, 2, 0));
    assert_eq!(says("to between", &with(&[1, 0, 0, 2]), &with(&[0, 1, 0, 2])), turned(0, 1, 1, 0));
}

#[test]
fn no_rearrangement() {
    let other = |change: fn(&mut Scene)| {
        let mut other = scene();
        change(&mut other);
        other
    };
    let cases: [(&str, Scene, &str); 7] = [
        ("width", other(|scene| scene.width = 17), "16 by 8 pixels and 17 by 8"),
        ("height", other(|scene| scene.height = 9), "16 by 8 pixels and 16 by 9"),
        ("count", with(&[0, 1]), "3 draws and 2"),
        ("edition", other(|scene| scene.edition = 1), "two editions"),
        (
            "background",
            other(|scene| scene.background[3] = 254),
            "the backgrounds [10, 20, 30, 255] and [10, 20, 30, 254]",
        ),
        (
            "another draw",
            other(|scene| scene.draws[2].color[3] = 0.5),
            "draw 2 of the second scene is not in the first, or not as often",
        ),
        ("a draw twice", with(&[0, 1, 1]), "draw 2 of the second scene is not in the first, or not as often"),
    ];
    for (name, other, why) in cases {
        assert_eq!(says(name, &scene(), &other), (format!("no rearrangement: {why}\n"), 1));
    }
}

/// A draw may ask for the mask: one counts as lent.
#[test]
fn masked_draws() {
    let mut first = scene();
    first.draws[0].masked = true;
    let mut second = first.clone();
    second.draws.swap(1, 2);
    assert_eq!(says("masked", &first, &second), (format!("{SAME}draw 1 went to 2\ndraw 2 went to 1\n"), 0));
}

/// Files that cannot be judged end with 2, and say why on standard error.
#[test]
fn refused_files_and_wrong_arguments() {
    let complains = |output: Output, words: &str| {
        let error = String::from_utf8(output.stderr).expect("text");
        assert!(output.stdout.is_empty() && error.ends_with(&format!("{words}\n")), "{error}");
        assert_eq!(output.status.code(), Some(2), "{words}");
    };
    let file = scene().bytes();
    let mut spoiled = file.clone();
    spoiled[512 * 5 + 8] ^= 1;
    complains(run("spoiled", &file, &spoiled), "-spoiled-2: refused b001 1");
    complains(run("short", &file[1..], &file), "-short-1: refused b002 64");
    // Draws exchanged with their old checks: the blocks are out of place.
    let mut moved = file.clone();
    moved.copy_within(512 * 5..512 * 9, 512 * 9);
    moved[512 * 5..512 * 9].copy_from_slice(&file[512 * 9..512 * 13]);
    complains(run("moved", &file, &moved), "-moved-2: refused b001 1");
    let program = || Command::new(env!("CARGO_BIN_EXE_rearranged"));
    complains(program().output().expect("the program"), "usage: rearranged SCENE SCENE");
    complains(program().args(["a", "b", "c"]).output().expect("the program"), "usage: rearranged SCENE SCENE");
    let missing = program().args(["/nonexistent/a.scene", "/nonexistent/b.scene"]).output().expect("the program");
    assert!(String::from_utf8_lossy(&missing.stderr).starts_with("/nonexistent/a.scene: "));
    assert_eq!(missing.status.code(), Some(2));
    let help = program().arg("--help").output().expect("the program");
    assert!(help.status.success() && String::from_utf8_lossy(&help.stdout).contains("order changed"));
}
