//! The programs that write images, as a script calls them: help, standard input and output, exit statuses.

use std::fs;
use std::io::Write;
use std::path::{Path, PathBuf};
use std::process::{Command, Output, Stdio};

/// A program's exit status and what it writes, given something to read.
fn run(program: &str, arguments: &[&str], input: &[u8]) -> (i32, Vec<u8>, String) {
    let mut child = Command::new(program)
        .args(arguments)
        .stdin(Stdio::piped())
        .stdout(Stdio::piped())
        .stderr(Stdio::piped())
        .spawn()
        .expect("the program runs");
    // A program that does not read what it is given may be gone by now.
    let _ = child.stdin.take().expect("its input").write_all(input);
    let Output { status, stdout, stderr } = child.wait_with_output().expect("its output");
    (status.code().expect("an exit status"), stdout, String::from_utf8(stderr).expect("text"))
}

const TO_PNG: &str = env!("CARGO_BIN_EXE_picture-to-png");
const DIFF: &str = env!("CARGO_BIN_EXE_picture-diff");
const PICTURE: &[u8] = b"2 1\n000000ff 40000080\n";

fn target(name: &str) -> PathBuf {
    let path = Path::new(env!("CARGO_TARGET_TMPDIR")).join(name);
    let _ = fs::remove_file(&path);
    path
}

#[test]
fn help() {
    for (program, usage) in
        [(TO_PNG, "usage: picture-to-png [PICTURE] IMAGE\n"), (DIFF, "usage: picture-diff PICTURE PICTURE IMAGE\n")]
    {
        let (status, output, errors) = run(program, &["--help"], b"");
        assert!(status == 0 && output.starts_with(usage.as_bytes()) && errors.is_empty());
        assert_eq!(run(program, &[], b""), (2, Vec::new(), usage.to_string()));
    }
}

/// Printed pictures and PAM images, by name or from standard input, become the same image.
#[test]
fn images() {
    let (source, image) = (target("picture.txt"), target("picture.png"));
    fs::write(&source, PICTURE).expect("a file");
    let name = |path: &Path| path.to_str().expect("a name").to_string();
    let (status, png, errors) = run(TO_PNG, &["-"], PICTURE);
    assert!(status == 0 && png.starts_with(b"\x89PNG\r\n\x1a\n") && errors.is_empty());
    assert_eq!(run(TO_PNG, &[&name(&source), &name(&image)], b"").0, 0);
    assert!(fs::read(&image).expect("an image") == png);
    let header = b"P7\nWIDTH 2\nHEIGHT 1\nDEPTH 4\nMAXVAL 255\nTUPLTYPE RGB_ALPHA\nENDHDR\n";
    let pam = [&header[..], &[0, 0, 0, 255, 128, 0, 0, 128]].concat();
    assert!(run(TO_PNG, &["-", "-"], &pam).1 == png);
}

/// What is no picture is told, with 1 for a refused scene and 2 for the rest, and no image is written.
#[test]
fn refusals() {
    let image = target("none.png");
    let name = image.to_str().expect("a name");
    for text in ["refused b002 64\n", "refused 1001 3 1\n", "limit\n"] {
        let (status, output, errors) = run(TO_PNG, &[name], text.as_bytes());
        assert!(status == 1 && output.is_empty() && errors.contains(text.trim()), "{errors}");
    }
    for text in ["", "0 0\n", "4000000000 4000000000\n", "2 1\n000000ff\n", "P7\nWIDTH 0\nHEIGHT 0\n"] {
        let (status, output, errors) = run(TO_PNG, &[name], text.as_bytes());
        assert!(status == 2 && output.is_empty() && errors.lines().count() == 1, "{text}: {errors}");
    }
    let (status, _, errors) = run(TO_PNG, &["no such file", name], b"");
    assert!(status == 2 && errors.starts_with("no such file: "));
    assert_eq!(run(TO_PNG, &["no such folder/image.png"], PICTURE).0, 2);
    assert!(!image.exists());
}

#[test]
fn differences() {
    let (one, other, image) = (target("one.txt"), target("other.txt"), target("differences.png"));
    let names = [&one, &other, &image].map(|path| path.to_str().expect("a name").to_string());
    let names: Vec<&str> = names.iter().map(|name| &name[..]).collect();
    fs::write(&one, PICTURE).expect("a file");
    fs::write(&other, "1 1\n000000ff\n").expect("a file");
    let (status, output, _) = run(DIFF, &names, b"");
    assert!(status == 1 && output == b"refused 1004\n" && !image.exists());
    fs::write(&other, "2 1\n000000ff 40000081\n").expect("a file");
    let (status, output, errors) = run(DIFF, &names, b"");
    assert!(status == 0 && output == b"differ 1 1 0 1 1 1 1\n" && errors.is_empty() && image.exists());
    let (status, output, _) = run(DIFF, &[names[0], names[1], "-"], b"");
    assert!(status == 0 && output == fs::read(&image).expect("an image"));
    assert_eq!(run(DIFF, &[names[0], "no such file", names[2]], b"").0, 2);
    fs::write(&other, "2 1\n000000ff\n").expect("a file");
    assert_eq!(run(DIFF, &names, b"").0, 2);
}
