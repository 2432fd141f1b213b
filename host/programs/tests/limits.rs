//! What the program limits has to print in the gate, by the reference.

use std::fs;
use std::path::PathBuf;

use reference::{draw, redraw, Answer};

fn folder() -> PathBuf {
    PathBuf::from(env!("CARGO_MANIFEST_DIR")).join("../../crates/limits")
}

fn scene(name: &str) -> Vec<u8> {
    fs::read(folder().join("data").join(name)).expect(name)
}

/// Surface and room with something in every place.
fn buffers(surface: &str, room: &str) -> (Vec<u8>, Vec<i32>) {
    (vec![0xA5; surface.parse().expect("bytes")], vec![-7; room.parse().expect("numbers")])
}

/// What the call left, in the program's words.
fn left(answer: &Answer, before: &(Vec<u8>, Vec<i32>), after: &(Vec<u8>, Vec<i32>), picture: &[u8]) -> String {
    let numbers = [answer.draw, answer.scene, answer.x, answer.y, answer.width, answer.height];
    let numbers: Vec<String> = numbers.iter().map(u32::to_string).collect();
    let words = if answer.code == 0 {
        assert!(after.0 == picture && after.1.iter().all(|&number| number == 0));
        "surface drawn, room zero"
    } else {
        assert!(after == before);
        "surface kept, room kept"
    };
    format!("{:04x} {}, {words}", answer.code, numbers.join(" "))
}

/// The picture of a scene, or nothing if it is refused.
fn picture(scene: &[u8], surface: &str) -> Vec<u8> {
    let mut full = buffers(surface, "12300");
    full.0.fill(0x3C);
    draw(scene, None, &mut full.0, &mut full.1);
    full.0
}

fn line(call: &[&str]) -> String {
    let told = match *call {
        ["draw", file, surface, room] => {
            let before = buffers(surface, room);
            let mut after = before.clone();
            let answer = draw(&scene(file), None, &mut after.0, &mut after.1);
            left(&answer, &before, &after, &picture(&scene(file), surface))
        }
        ["redraw", old, new, surface, room] => {
            let mut before = buffers(surface, room);
            draw(&scene(old), None, &mut before.0, &mut before.1);
            before.1.fill(-7);
            let mut after = before.clone();
            let answer = redraw(&scene(old), &scene(new), None, &mut after.0, &mut after.1);
            left(&answer, &before, &after, &picture(&scene(new), surface))
        }
        _ => panic!("{call:?}"),
    };
    format!("{}: {told}\n", call.join(" "))
}

#[test]
fn the_stored_output_is_the_references() {
    let arguments = fs::read_to_string(folder().join("args")).expect("args");
    let words: Vec<&str> = arguments.lines().collect();
    let starts: Vec<usize> = (0..words.len()).filter(|&i| ["draw", "redraw"].contains(&words[i])).collect();
    let mut text = String::from("call FILES SURFACE ROOM: code draw scene x y width height, surface, room\n");
    for (k, &start) in starts.iter().enumerate() {
        let end = starts.get(k + 1).copied().unwrap_or(words.len());
        text += &line(&words[start..end]);
    }
    assert_eq!(fs::read_to_string(folder().join("stdout")).expect("stdout"), text);
}
