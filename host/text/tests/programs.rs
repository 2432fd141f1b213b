//! The two tools as they are run: files, standard input and output, exit statuses.

use std::fs;
use std::io::Write;
use std::path::PathBuf;
use std::process::{Command, Output, Stdio};

use scene::Scene;

const TO_TEXT: &str = env!("CARGO_BIN_EXE_scene-to-text");
const TO_SCENE: &str = env!("CARGO_BIN_EXE_text-to-scene");

fn run(program: &str, arguments: &[&str], input: &[u8]) -> Output {
    let mut child = Command::new(program)
        .args(arguments)
        .stdin(Stdio::piped())
        .stdout(Stdio::piped())
        .stderr(Stdio::piped())
        .spawn()
        .expect("a program");
    // A program that does not read its input may have ended by now.
    let _ = child.stdin.take().expect("its input").write_all(input);
    child.wait_with_output().expect("its end")
}

fn file(name: &str) -> PathBuf {
    PathBuf::from(env!("CARGO_TARGET_TMPDIR")).join(name)
}

#[test]
fn there_and_back() {
    let scene = Scene::new(2, 1, [0, 0, 0, 255]).bytes();
    let text = b"size 2 1\nedition 0\nbackground #000000ff\n// draws: 0\n";
    let written = run(TO_TEXT, &["-"], &scene);
    assert_eq!((written.status.code(), &written.stdout[..], &written.stderr[..]), (Some(0), &text[..], &b""[..]));
    let read = run(TO_SCENE, &["-", "-"], text);
    assert_eq!((read.status.code(), &read.stdout[..]), (Some(0), &scene[..]));

    let (first, second, third) = (file("first.scene"), file("second.txt"), file("third.scene"));
    fs::write(&first, &scene).expect("a file");
    let names = [&first, &second, &third].map(|path| path.to_str().expect("a name"));
    assert_eq!(run(TO_TEXT, &names[..2], b"").status.code(), Some(0));
    assert_eq!(run(TO_SCENE, &names[1..], b"").status.code(), Some(0));
    assert_eq!(fs::read(&third).expect("a file"), scene);
}

#[test]
fn a_refused_scene() {
    let wide = Scene::new(1_025, 1, [0; 4]).bytes();
    let words = "refused 1001, offset 0: the width is 1025; the width is from 1 to 1,024";
    let written = run(TO_TEXT, &["-"], &wide);
    assert_eq!(written.status.code(), Some(1));
    assert!(String::from_utf8_lossy(&written.stdout).starts_with(&format!("size 1025 1 // {words}\n")));
    assert_eq!(String::from_utf8_lossy(&written.stderr), format!("-: {words}\n"));

    let read = run(TO_SCENE, &["-", "-"], b"size 1025 1");
    assert_eq!((read.status.code(), read.stdout.len()), (Some(1), 0));
    assert_eq!(String::from_utf8_lossy(&read.stderr), format!("-:1:6: {words}\n"));
    let unjudged = run(TO_SCENE, &["--unjudged", "-", "-"], b"size 1025 1");
    assert_eq!((unjudged.status.code(), unjudged.stdout), (Some(0), wide));
}

#[test]
fn a_wrong_text() {
    let target = file("unwritten.scene");
    let read = run(TO_SCENE, &["-", target.to_str().expect("a name")], b"size 1\nsize 2\n");
    assert_eq!(read.status.code(), Some(1));
    let expected =
        "-:1:7: 'size' takes a width and a height, and here are 1\n-:2:1: 'size' stands here a second time\n";
    assert_eq!(String::from_utf8_lossy(&read.stderr), expected);
    assert!(!target.exists());
}

#[test]
fn files_and_arguments_that_are_none() {
    for program in [TO_TEXT, TO_SCENE] {
        for arguments in [&[][..], &["a", "b", "c"], &["/nowhere/at-all", "-"], &["--other", "-"]] {
            let output = run(program, arguments, b"");
            assert_eq!((output.status.code(), output.stdout.len()), (Some(2), 0), "{arguments:?}");
            assert!(!output.stderr.is_empty());
        }
        let help = run(program, &["--help"], b"");
        assert_eq!(help.status.code(), Some(0));
        assert!(help.stdout.starts_with(b"usage: "));
    }
    let unwritable = run(TO_SCENE, &["-", "/nowhere/at-all"], b"size 1 1");
    assert_eq!(unwritable.status.code(), Some(2));
}
