//! The programs of the reference, as a script calls them: help, standard input, exit statuses.

use std::io::Write;
use std::path::{Path, PathBuf};
use std::process::{Command, Output, Stdio};

fn data(name: &str) -> PathBuf {
    Path::new(env!("CARGO_MANIFEST_DIR")).join("../../crates").join(name)
}

/// A program's exit status and what it writes, given something to read.
fn run(program: &str, arguments: &[&str], input: &[u8]) -> (i32, String, String) {
    let mut child = Command::new(program)
        .args(arguments)
        .stdin(Stdio::piped())
        .stdout(Stdio::piped())
        .stderr(Stdio::piped())
        .spawn()
        .expect("the program runs");
    // A program that does not read what it is given may be gone by now.
    let _ = child.stdin.take().expect("its input").write_all(input);
    let Output { status, stdout, stderr } = child.wait_with_output().expect("its output");
    let text = |bytes| String::from_utf8(bytes).expect("text");
    (status.code().expect("an exit status"), text(stdout), text(stderr))
}

const DRAW: &str = env!("CARGO_BIN_EXE_reference-draw");
const REDRAW: &str = env!("CARGO_BIN_EXE_reference-redraw");
const REPLAY: &str = env!("CARGO_BIN_EXE_reference-replay");

#[test]
fn help() {
    let programs = [
        (DRAW, "usage: reference-draw SCENE [MASK]\n"),
        (REDRAW, "usage: reference-redraw OLD NEW [MASK]\n"),
        (REPLAY, "usage: reference-replay SCENE ..\n"),
    ];
    for (program, usage) in programs {
        for arguments in [&["--help"][..], &["x", "-h"]] {
            let (status, output, errors) = run(program, arguments, b"");
            assert!(status == 0 && output.starts_with(usage) && output.lines().count() > 3 && errors.is_empty());
        }
        assert_eq!(run(program, &[], b""), (2, String::new(), usage.to_string()));
        assert_eq!(run(program, &["a", "b", "c", "d"], b"").0, 2);
    }
}

#[test]
fn statuses() {
    let [two_by_one, red, blue] =
        ["draw/data/two-by-one.scene", "redraw/data/red.scene", "redraw/data/blue.scene"].map(data);
    let [two_by_one, red, blue] = [&two_by_one, &red, &blue].map(|path| path.to_str().expect("a name"));
    let drawn = (0, "2 1\n000000ff 000000ff\n".to_string(), String::new());
    assert_eq!(run(DRAW, &[two_by_one], b""), drawn);
    let bytes = std::fs::read(two_by_one).expect("a scene");
    assert_eq!(run(DRAW, &["-"], &bytes), drawn);
    assert_eq!(run(DRAW, &["-"], b""), (1, "refused b002 64\n".to_string(), String::new()));
    assert_eq!(run(DRAW, &[two_by_one, "-"], b"?"), (1, "refused 1004 64\n".to_string(), String::new()));
    let (status, output, errors) = run(DRAW, &["no such file"], b"");
    assert!(status == 2 && output.is_empty() && errors.starts_with("no such file: "), "{errors}");

    let (status, output, errors) = run(REDRAW, &[red, blue], b"");
    assert!(status == 0 && output.starts_with("0 0 3 3\n4 4\n") && errors.is_empty());
    assert_eq!(run(REDRAW, &[red, two_by_one], b""), (1, "refused 1001 64 1\n".to_string(), String::new()));
    assert_eq!(run(REDRAW, &["-", red], &bytes), (1, "refused 1001 64 1\n".to_string(), String::new()));
    assert_eq!(run(REDRAW, &[red, "no such file"], b"").0, 2);

    let (status, output, errors) = run(REPLAY, &[red, "-"], &std::fs::read(blue).expect("a scene"));
    assert!(
        status == 0 && output.starts_with("code 0000\n0000 64 0 0 0 4 4\n0000 64 0 0 0 3 3\n") && errors.is_empty()
    );
    let (status, output, errors) = run(REPLAY, &[red, two_by_one], b"");
    assert!(status == 1 && output.contains("\n1001 64 1 0 0 0 0\ncontext 1001\nlast 0\n") && errors.is_empty());
    assert_eq!(run(REPLAY, &[red, "no such file"], b"").0, 2);
}
