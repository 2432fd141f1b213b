//! The tool as it is run: files, standard input and output, exit statuses.

use std::fs;
use std::io::Write;
use std::path::PathBuf;
use std::process::{Command, Output, Stdio};

const TO_SCENE: &str = env!("CARGO_BIN_EXE_svg-to-scene");

fn run(arguments: &[&str], input: &[u8]) -> Output {
    let mut child = Command::new(TO_SCENE)
        .args(arguments)
        .stdin(Stdio::piped())
        .stdout(Stdio::piped())
        .stderr(Stdio::piped())
        .spawn()
        .expect("a program");
    // A program that does not read its input may have ended by now.
    let _ = child.stdin.take().expect("its input").write_all(input);
    child.wait_with_output().expect("its end")
}

#[test]
fn what_is_held_and_what_is_not() {
    let document = b"<svg width='8' height='8'><circle r='5'/>\n<text>a</text></svg>";
    let told = "-:2:1: text: text cannot be held\n";
    let refused = run(&["-", "-"], document);
    assert_eq!(
        (refused.status.code(), refused.stdout.len(), String::from_utf8_lossy(&refused.stderr).as_ref()),
        (Some(1), 0, told)
    );
    let skipped = run(&["--skip", "--background", "#01020304", "--size", "16x8", "-", "-"], document);
    assert_eq!((skipped.status.code(), String::from_utf8_lossy(&skipped.stderr).as_ref()), (Some(0), told));
    assert_eq!(skipped.stdout.len(), 2_560);
    assert_eq!(skipped.stdout[..12], [16, 0, 8, 0, 1, 0, 0, 0, 1, 2, 3, 4]);
    let none = run(&["--skip", "-", "-"], b"<svg>");
    assert_eq!((none.status.code(), none.stdout.len()), (Some(1), 0));
}

#[test]
fn files_and_arguments_that_are_none() {
    let target = PathBuf::from(env!("CARGO_TARGET_TMPDIR")).join("circle.scene");
    let name = target.to_str().expect("a name");
    assert_eq!(run(&["-", name], b"<svg width='8' height='8'><circle r='5'/></svg>").status.code(), Some(0));
    assert_eq!(fs::read(&target).expect("a file").len(), 2_560);
    let wrong: [&[&str]; 6] = [
        &[],
        &["-"],
        &["--size", "8", "-", "-"],
        &["--background", "red", "-", "-"],
        &["--other", "-", "-"],
        &["/nowhere/at-all", "-"],
    ];
    for arguments in wrong {
        let output = run(arguments, b"");
        assert_eq!((output.status.code(), output.stdout.len()), (Some(2), 0), "{arguments:?}");
    }
    let help = run(&["--help"], b"");
    assert!(help.status.success() && help.stdout.starts_with(b"usage: svg-to-scene"));
}
